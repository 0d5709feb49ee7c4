//! An allocator for fuzzing, of the package and of the library: an allocation can be refused, blocks are counted, and they can end at
//! a page that can't be touched.
//!
//! The targets are in `examples`. [fuzz](../fuzz) builds one for libFuzzer and runs it.
use std::alloc::{GlobalAlloc, Layout};
use std::ffi::{c_int, c_void};
use std::ptr;
use std::sync::atomic::{AtomicBool, AtomicUsize, Ordering::Relaxed};

const PAGE: usize = 4096;

/// The bytes before each block, which keep the size of its mapping, or 0 if it is one of `malloc`.
const HEAD: usize = 16;

const ALL: usize = usize::MAX;

/// How many allocations succeed still.
static LEFT: AtomicUsize = AtomicUsize::new(ALL);
/// Whether only allocations of the library are refused.
static IS_LIBRARY_ALONE: AtomicBool = AtomicBool::new(false);
/// Whether new blocks end at a page that can't be touched.
static ARE_FENCED: AtomicBool = AtomicBool::new(false);
/// How many blocks there are.
static LIVE: AtomicUsize = AtomicUsize::new(0);

extern "C" {
    fn malloc(size: usize) -> *mut c_void;
    fn free(block: *mut c_void);
    fn mmap(
        at: *mut c_void,
        size: usize,
        access: c_int,
        flags: c_int,
        file: c_int,
        from: i64,
    ) -> *mut c_void;
    fn mprotect(at: *mut c_void, size: usize, access: c_int) -> c_int;
    fn munmap(at: *mut c_void, size: usize) -> c_int;
}

const NO_ACCESS: c_int = 0;
const READ_AND_WRITE: c_int = 3;
const PRIVATE_AND_ANONYMOUS: c_int = 0x22;

/// Has blocks that are made from now on end at a page that can't be touched, or not.
pub fn fence(are_fenced: bool) {
    ARE_FENCED.store(are_fenced, Relaxed);
}

/// How many blocks there are.
pub fn live() -> usize {
    LIVE.load(Relaxed)
}

/// Calls with this many allocations granted.
pub fn granting<T>(count: usize, call: impl FnOnce() -> T) -> T {
    LEFT.store(count, Relaxed);
    let result = call();
    LEFT.store(ALL, Relaxed);
    result
}

/// As [`granting`]; allocations of the package are granted and not counted.
pub fn granting_library<T>(count: usize, call: impl FnOnce() -> T) -> T {
    IS_LIBRARY_ALONE.store(true, Relaxed);
    let result = granting(count, call);
    IS_LIBRARY_ALONE.store(false, Relaxed);
    result
}

fn is_granted() -> bool {
    match LEFT.load(Relaxed) {
        0 => false,
        ALL => true,
        left => {
            LEFT.store(left - 1, Relaxed);
            true
        }
    }
}

/// A block that ends, except for its alignment, at a page that can't be touched.
fn fenced(size: usize, align: usize) -> *mut u8 {
    let size = size.next_multiple_of(align);
    let room = (size + HEAD).next_multiple_of(PAGE);
    // SAFETY: the mapping is new, and the head and the block are in it.
    unsafe {
        let start = mmap(
            ptr::null_mut(),
            room + PAGE,
            READ_AND_WRITE,
            PRIVATE_AND_ANONYMOUS,
            -1,
            0,
        )
        .cast::<u8>();
        assert!(start as isize != -1 && mprotect(start.add(room).cast(), PAGE, NO_ACCESS) == 0);
        let block = start.add(room - size);
        block.sub(HEAD).cast::<usize>().write_unaligned(room + PAGE);
        block
    }
}

fn made(size: usize, align: usize) -> *mut u8 {
    assert!(align <= HEAD, "no block is aligned to more");
    LIVE.fetch_add(1, Relaxed);
    if ARE_FENCED.load(Relaxed) {
        return fenced(size, align);
    }
    // SAFETY: the head is in the block.
    unsafe {
        let start = malloc(size + HEAD).cast::<u8>();
        assert!(!start.is_null());
        start.cast::<usize>().write(0);
        start.add(HEAD)
    }
}

/// # Safety
/// [`made`] made the block.
unsafe fn freed(block: *mut u8) {
    LIVE.fetch_sub(1, Relaxed);
    // SAFETY: the head is in front of the block, and has the kind of the block.
    unsafe {
        let head = block.sub(HEAD);
        match head.cast::<usize>().read_unaligned() {
            0 => free(head.cast()),
            size => {
                let start = head.sub(head as usize % PAGE);
                assert!(munmap(start.cast(), size) == 0);
            }
        }
    }
}

struct Fences;

// SAFETY: each block is new, has the size and the alignment, and is freed once.
unsafe impl GlobalAlloc for Fences {
    unsafe fn alloc(&self, layout: Layout) -> *mut u8 {
        if IS_LIBRARY_ALONE.load(Relaxed) || is_granted() {
            made(layout.size(), layout.align())
        } else {
            ptr::null_mut()
        }
    }

    unsafe fn dealloc(&self, block: *mut u8, _: Layout) {
        // SAFETY: what the caller promises.
        unsafe { freed(block) }
    }
}

#[global_allocator]
static ALLOCATOR: Fences = Fences;

// The library's allocations go to these in place of its own.

#[no_mangle]
extern "C" fn grain_alloc(size: usize, alignment: usize) -> *mut c_void {
    if is_granted() {
        made(size, alignment).cast()
    } else {
        ptr::null_mut()
    }
}

#[no_mangle]
unsafe extern "C" fn grain_realloc(
    block: *mut c_void,
    old_size: usize,
    size: usize,
    alignment: usize,
) -> *mut c_void {
    let grown = grain_alloc(size, alignment);
    if !grown.is_null() {
        // SAFETY: both blocks have as many bytes, and the library made the old one.
        unsafe {
            ptr::copy_nonoverlapping(block.cast::<u8>(), grown.cast(), old_size.min(size));
            freed(block.cast());
        }
    }
    grown
}

#[no_mangle]
unsafe extern "C" fn grain_dealloc(block: *mut c_void) {
    // SAFETY: the library gives back what it got.
    unsafe { freed(block.cast()) }
}
