//! Verification in memory that is kept.
use crate::capabilities::Caps;
use crate::changed::{self, TightenError};
use crate::error::{ExplainError, VerifyError};
use crate::explained::{self, Explained, Subject};
use crate::file::ProgramFile;
use crate::flat::FlatPools;
use crate::limits::Limits;
use crate::program::Program;
use crate::refusal::Refusal;
use crate::verified::{Rejected, Verified};
use crate::{raw, Chunk};
use std::cell::RefCell;

/// Verifies one program after another in memory that it keeps, within a limit on work.
///
/// Each result is right whatever was verified before, as one of [`verify`](crate::verify) is; that is proved of the library.
/// Which of several flaws a refusal names, and when memory runs out, isn't specified. It allocates only if a program needs more
/// than is kept, and keeps as much as the largest program needed (EMBEDDING.md), until it is dropped or [`Verifier::release`] is
/// called.
///
/// ```
/// use grain::{Caps, Chunk, Pools, Program, Verifier, VerifyError};
///
/// let mut verifier = Verifier::new().limit(1 << 20);
/// let pools = Pools::new();
/// for code in [[0x02, 0x13], [0x04, 0x13]] {
///     assert_eq!(verifier.verify(Caps::NONE, &code, &[Chunk::new(0, 2, 1)], &pools)?, [1]);
/// }
///
/// let program = Program::new(vec![0x02, 0x13], vec![Chunk::new(0, 2, 1)], Pools::new());
/// let verified = verifier.verify_program(Caps::NONE, program.clone())?;
/// assert_eq!(verified.depth(0), Some(1));
///
/// let mut small = Verifier::new().limit(1);
/// let rejected = small.verify_program(Caps::NONE, program).unwrap_err();
/// assert_eq!(rejected.error(), &VerifyError::TooMuchWork);
/// # Ok::<(), Box<dyn std::error::Error>>(())
/// ```
#[derive(Debug)]
pub struct Verifier {
    scratch: raw::Scratch,
    limit: u64,
    depths: Vec<u16>,
}

// SAFETY: what the library keeps is memory that no other handle names, and that it may be handed to another thread is proved of
// the record.
unsafe impl Send for Verifier {}

// SAFETY: only calls that borrow the verifier alone read or change what the library keeps.
unsafe impl Sync for Verifier {}

impl Default for Verifier {
    fn default() -> Verifier {
        Verifier::new()
    }
}

impl Verifier {
    /// One that has no memory yet, and no limit.
    #[must_use]
    pub const fn new() -> Verifier {
        Verifier {
            scratch: raw::Scratch::NONE,
            limit: raw::NO_LIMIT,
            depths: Vec::new(),
        }
    }

    /// With a limit on the work for a program: its chunks may span this many bytes of the code together, each chunk counted for
    /// itself. Then no more instructions are visited, and [`VerifyError::TooMuchWork`] is the result for a program that goes
    /// beyond.
    ///
    /// Chunks of one program usually don't overlap, so the greatest length of code that a host takes is enough.
    #[must_use]
    pub fn limit(mut self, bytes: u64) -> Verifier {
        self.limit = bytes;
        self
    }

    /// Makes as many places for depths as there are chunks.
    fn make_room(&mut self, chunks: usize) -> Result<(), VerifyError> {
        let lacking = chunks.saturating_sub(self.depths.len());
        self.depths
            .try_reserve(lacking)
            .map_err(|_| VerifyError::OutOfMemory)?;
        self.depths.resize(chunks, 0);
        Ok(())
    }

    /// Verifies a program, and returns the depth of each chunk, as [`verify`](crate::verify) does.
    ///
    /// # Errors
    /// Those of [`verify`](crate::verify), and [`VerifyError::TooMuchWork`].
    pub fn verify<'a>(
        &mut self,
        caps: Caps,
        code: &[u8],
        chunks: &[Chunk],
        pools: impl Into<FlatPools<'a>>,
    ) -> Result<&[u16], VerifyError> {
        self.make_room(chunks.len())?;
        let mut room = Room::of_depths(&mut self.depths);
        let scratch = Some(&mut self.scratch);
        judge_in(
            scratch,
            self.limit,
            caps,
            code,
            chunks,
            &pools.into(),
            &mut room,
        )?;
        Ok(&self.depths)
    }

    /// Verifies a program, writes the depths to the first entries of a list of the caller's, and returns how many instructions were
    /// visited, as [`verify_into`](crate::verify_into) does.
    ///
    /// # Errors
    /// Those of [`verify_into`](crate::verify_into), and [`VerifyError::TooMuchWork`].
    pub fn verify_into<'a>(
        &mut self,
        caps: Caps,
        code: &[u8],
        chunks: &[Chunk],
        pools: impl Into<FlatPools<'a>>,
        depths: &mut [u16],
    ) -> Result<u64, VerifyError> {
        let mut room = Room::of_depths(depths);
        let scratch = Some(&mut self.scratch);
        judge_in(
            scratch,
            self.limit,
            caps,
            code,
            chunks,
            &pools.into(),
            &mut room,
        )
    }

    /// Verifies the program of a file, and returns the depth of each chunk, as [`ProgramFile::verify`] does.
    ///
    /// # Errors
    /// Those of [`ProgramFile::verify`], and [`VerifyError::TooMuchWork`].
    pub fn verify_file(&mut self, caps: Caps, file: &ProgramFile) -> Result<&[u16], VerifyError> {
        self.make_room(file.chunks().len())?;
        let mut room = Room::of_depths(&mut self.depths);
        file.judge(Some(&mut self.scratch), self.limit, caps, &mut room)?;
        Ok(&self.depths)
    }

    /// Verifies a program, and returns it as a [`Verified`], as [`Program::into_verified`] does.
    ///
    /// # Errors
    /// The program and the error of [`Verifier::verify`].
    // The error has the program in it; a box would take memory, which may be what is lacking.
    #[allow(clippy::result_large_err)]
    pub fn verify_program(&mut self, caps: Caps, program: Program) -> Result<Verified, Rejected> {
        let (scratch, limit) = (Some(&mut self.scratch), self.limit);
        let found = Found::by(program.chunks().len(), |room| {
            let (code, chunks) = (program.code(), program.chunks());
            judge_in(
                scratch,
                limit,
                caps,
                code,
                chunks,
                &program.pools().flat(),
                room,
            )
        });
        Verified::new(program, caps, found)
    }

    /// Verifies the program of a file, and returns the file as a [`Verified`], as [`ProgramFile::into_verified`] does.
    ///
    /// # Errors
    /// The file and the error of [`Verifier::verify_file`].
    pub fn verify_program_file(
        &mut self,
        caps: Caps,
        file: ProgramFile,
    ) -> Result<Verified<ProgramFile>, Rejected<ProgramFile>> {
        let (scratch, limit) = (Some(&mut self.scratch), self.limit);
        let found = Found::by(file.chunks().len(), |room| {
            file.judge(scratch, limit, caps, room)
        });
        Verified::new(file, caps, found)
    }

    /// The file of the same program, whose chunks declare their depths, as [`ProgramFile::tighten`] makes it, within the limit on
    /// work.
    ///
    /// # Errors
    /// Those of [`ProgramFile::tighten`], and [`VerifyError::TooMuchWork`].
    pub fn tighten_file(&self, bytes: &[u8], limits: &Limits) -> Result<Vec<u8>, TightenError> {
        changed::tighten(bytes, limits, self.limit)
    }

    /// Explains a chunk of a program, or a refusal of it, as [`explain`](crate::explain) does.
    ///
    /// # Errors
    /// Those of [`explain`](crate::explain), and [`ExplainError::TooMuchWork`] if the chunk spans more of the code than the
    /// limit.
    pub fn explain<'a>(
        &self,
        caps: Caps,
        code: &'a [u8],
        chunks: &[Chunk],
        pools: impl Into<FlatPools<'a>>,
        subject: impl Into<Subject>,
    ) -> Result<Explained<'a>, ExplainError> {
        explained::explain_within(self.limit, caps, code, chunks, pools.into(), subject.into())
    }

    /// Frees its memory. It may be used again.
    pub fn release(&mut self) {
        self.depths = Vec::new();
        // SAFETY: the scratch is this verifier's alone, and was made by the library or keeps nothing.
        unsafe { raw::grain_scratch_free(&mut self.scratch) }
    }
}

impl Drop for Verifier {
    fn drop(&mut self) {
        self.release();
    }
}

/// Room for what is returned of each chunk.
#[derive(Debug)]
pub(crate) struct Room<'a> {
    pub(crate) depths: &'a mut [u16],
    slots: Option<&'a mut [u32]>,
}

impl<'a> Room<'a> {
    /// Room for depths alone.
    pub(crate) fn of_depths(depths: &'a mut [u16]) -> Room<'a> {
        Room {
            depths,
            slots: None,
        }
    }

    /// If as many numbers of slots are written as there are depths; NULL if there is no such room.
    pub(crate) fn slots(&mut self) -> *mut u32 {
        match &mut self.slots {
            Some(slots) if slots.len() >= self.depths.len() => slots.as_mut_ptr(),
            _ => std::ptr::null_mut(),
        }
    }
}

/// What verification returns of each chunk of a program that it accepts.
#[derive(Clone, Debug, PartialEq, Eq, Hash)]
pub(crate) struct Found {
    pub(crate) depths: Vec<u16>,
    pub(crate) slots: Vec<u32>,
}

impl Found {
    /// What a verification finds of this many chunks.
    pub(crate) fn by(
        chunks: usize,
        verify: impl FnOnce(&mut Room<'_>) -> Result<u64, VerifyError>,
    ) -> Result<Found, VerifyError> {
        let mut found = Found {
            depths: zeroed(chunks)?,
            slots: zeroed(chunks)?,
        };
        verify(&mut Room {
            depths: &mut found.depths,
            slots: Some(&mut found.slots),
        })?;
        Ok(found)
    }
}

/// A list of its own with these items.
pub(crate) fn copied<T: Copy>(items: &[T]) -> Result<Vec<T>, VerifyError> {
    let mut own = Vec::new();
    own.try_reserve_exact(items.len())
        .map_err(|_| VerifyError::OutOfMemory)?;
    own.extend_from_slice(items);
    Ok(own)
}

/// A list of this many items, all of them 0.
pub(crate) fn zeroed<T: Copy + Default>(length: usize) -> Result<Vec<T>, VerifyError> {
    let mut list = Vec::new();
    list.try_reserve_exact(length)
        .map_err(|_| VerifyError::OutOfMemory)?;
    list.resize(length, T::default());
    Ok(list)
}

/// A small program has at most this many bytes of code, and this many chunks and entries of each list of its pools. For such, a
/// thread keeps less than 256 KiB.
const SMALL_CODE: usize = 3072;
const SMALL_LIST: usize = 128;

thread_local! {
    /// What verifies the small programs of the thread.
    static SMALL: RefCell<Verifier> = const { RefCell::new(Verifier::new()) };
}

/// The verdict on a program: on a small one in the memory that the thread keeps.
pub(crate) fn judge(
    caps: Caps,
    code: &[u8],
    chunks: &[Chunk],
    pools: &FlatPools<'_>,
    room: &mut Room<'_>,
) -> Result<u64, VerifyError> {
    if code.len() <= SMALL_CODE && chunks.len() <= SMALL_LIST && pools.are_within(SMALL_LIST) {
        // An error if the thread is about to end.
        let judged = SMALL.try_with(|small| {
            let mut small = small.try_borrow_mut().ok();
            let scratch = small.as_mut().map(|small| &mut small.scratch);
            judge_in(scratch, raw::NO_LIMIT, caps, code, chunks, pools, room)
        });
        if let Ok(judged) = judged {
            return judged;
        }
    }
    judge_in(None, raw::NO_LIMIT, caps, code, chunks, pools, room)
}

/// The verdict on a program, in the memory of a scratch, or in memory for this call alone.
pub(crate) fn judge_in(
    scratch: Option<&mut raw::Scratch>,
    limit: u64,
    caps: Caps,
    code: &[u8],
    chunks: &[Chunk],
    pools: &FlatPools<'_>,
    room: &mut Room<'_>,
) -> Result<u64, VerifyError> {
    check_length(code)?;
    let (program, mut report) = (pools.program(code, chunks), raw::Report::default());
    let scratch = scratch.map_or(std::ptr::null_mut(), |scratch| scratch as *mut _);
    // SAFETY: the record points to lists that are borrowed for the call, and what is written is borrowed for it alone. The
    // scratch, if any, is borrowed for the call, and was made by the library or keeps nothing.
    let status = unsafe {
        raw::grain_verify(
            scratch,
            caps.bits(),
            limit,
            &program,
            room.depths.as_mut_ptr(),
            room.depths.len(),
            room.slots(),
            &mut report,
        )
    };
    verdict(status, &report, pools)
}

/// Has each chunk declare its depth, and returns how many instructions were visited.
pub(crate) fn tighten(
    caps: Caps,
    code: &[u8],
    chunks: &mut [Chunk],
    pools: &FlatPools<'_>,
) -> Result<u64, VerifyError> {
    check_length(code)?;
    let mut tightened = copied(chunks)?;
    let (program, mut report) = (pools.program(code, chunks), raw::Report::default());
    // SAFETY: the record points to lists that are borrowed for the call; `tightened` is another list, without another reader.
    // There is no scratch.
    let status = unsafe {
        raw::grain_tighten(
            std::ptr::null_mut(),
            caps.bits(),
            raw::NO_LIMIT,
            &program,
            tightened.as_mut_ptr(),
            tightened.len(),
            &mut report,
        )
    };
    let visited = verdict(status, &report, pools)?;
    chunks.copy_from_slice(&tightened);
    Ok(visited)
}

/// An address has 32 bits.
pub(crate) fn check_length(code: &[u8]) -> Result<(), VerifyError> {
    if u32::try_from(code.len()).is_ok() {
        Ok(())
    } else {
        Err(VerifyError::TooLarge)
    }
}

/// The result of a call of the library.
pub(crate) fn verdict(
    status: u32,
    report: &raw::Report,
    pools: &FlatPools<'_>,
) -> Result<u64, VerifyError> {
    match status {
        raw::ACCEPTED => Ok(report.visited),
        raw::REFUSED => Err(Refusal::new(report.refusal, report.visited).into()),
        raw::SHORT => Err(VerifyError::TooFewDepths),
        raw::OUT_OF_MEMORY => Err(VerifyError::OutOfMemory),
        raw::NOT_FLAT => Err(not_flat(pools)),
        raw::TOO_MUCH_WORK => Err(VerifyError::TooMuchWork),
        status => Err(VerifyError::Unknown(status)),
    }
}

/// Why pools aren't flat: those that the package has built are only if a count doesn't fit.
pub(crate) fn not_flat(pools: &FlatPools<'_>) -> VerifyError {
    match pools.check() {
        Err(_) if pools.is_built => VerifyError::TooLarge,
        Err(flaw) => VerifyError::NotFlat(flaw),
        Ok(()) => VerifyError::Unknown(raw::NOT_FLAT),
    }
}
