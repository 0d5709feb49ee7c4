//! Each request for memory is refused in turn, those of the package and those of the library: every call answers an error, and
//! none ends the process. That no public call is left out is tested too.
mod common;

use common::api::{engine_functions, public_functions, Function};
use common::{bytes, sample_file, whole};
use grain::engine::{
    CompileError, Engine, Foreign, LoadError, RunError, State, Step as RunStep, Value,
};
use grain::{
    explain, stream_sites, table_entries, tighten, verify, verify_into, Caps, Case, Chunk,
    ExplainError, Explained, FileError, Limits, Needs, PoolError, Pools, Positions, Program,
    ProgramFile, Refusal, Rejected, Root, Step, Tail, TightenError, Verified, Verifier,
    VerifyError,
};
use std::alloc::{GlobalAlloc, Layout, System};
use std::cell::Cell;
use std::ffi::c_void;
use std::fmt::{self, Write};

/// The system's allocator, which refuses where [`may_allocate`] says so.
struct Refusing;

thread_local! {
    /// How many requests of the thread are still granted, where they are counted.
    static LEFT: Cell<Option<usize>> = const { Cell::new(None) };
    /// Whether one has been refused since.
    static IS_REFUSED: Cell<bool> = const { Cell::new(false) };
    /// Whether requests of the package are granted, and not counted.
    static IS_LIBRARY_ALONE: Cell<bool> = const { Cell::new(false) };
    /// How many bytes the largest request of the package has.
    static LARGEST: Cell<usize> = const { Cell::new(0) };
}

fn may_allocate() -> bool {
    match LEFT.get() {
        None => true,
        Some(0) => {
            IS_REFUSED.set(true);
            false
        }
        Some(left) => {
            LEFT.set(Some(left - 1));
            true
        }
    }
}

/// Whether a request of the package is granted.
fn may_package_allocate() -> bool {
    IS_LIBRARY_ALONE.get() || may_allocate()
}

// SAFETY: all that is granted is the system's.
unsafe impl GlobalAlloc for Refusing {
    unsafe fn alloc(&self, layout: Layout) -> *mut u8 {
        LARGEST.set(LARGEST.get().max(layout.size()));
        if may_package_allocate() {
            // SAFETY: what the caller promises.
            unsafe { System.alloc(layout) }
        } else {
            std::ptr::null_mut()
        }
    }

    unsafe fn dealloc(&self, block: *mut u8, layout: Layout) {
        // SAFETY: what the caller promises.
        unsafe { System.dealloc(block, layout) }
    }

    unsafe fn realloc(&self, block: *mut u8, layout: Layout, size: usize) -> *mut u8 {
        LARGEST.set(LARGEST.get().max(size));
        if may_package_allocate() {
            // SAFETY: what the caller promises.
            unsafe { System.realloc(block, layout, size) }
        } else {
            std::ptr::null_mut()
        }
    }
}

#[global_allocator]
static ALLOCATOR: Refusing = Refusing;

// The library's requests go to these in place of its own.

extern "C" {
    fn malloc(size: usize) -> *mut c_void;
    fn realloc(block: *mut c_void, size: usize) -> *mut c_void;
    fn free(block: *mut c_void);
}

#[no_mangle]
extern "C" fn grain_alloc(size: usize, _alignment: usize) -> *mut c_void {
    if may_allocate() {
        // SAFETY: a number is all that the function is given.
        unsafe { malloc(size) }
    } else {
        std::ptr::null_mut()
    }
}

#[no_mangle]
unsafe extern "C" fn grain_realloc(
    block: *mut c_void,
    _old_size: usize,
    size: usize,
    _alignment: usize,
) -> *mut c_void {
    if may_allocate() {
        // SAFETY: the library gives back what it got.
        unsafe { realloc(block, size) }
    } else {
        std::ptr::null_mut()
    }
}

#[no_mangle]
unsafe extern "C" fn grain_dealloc(block: *mut c_void) {
    // SAFETY: the library gives back what it got.
    unsafe { free(block) }
}

/// Calls that take memory as a `Vec` does: the process ends if the allocator refuses. Clones do too.
const ENDING: [&str; 4] = [
    "Pools::chain",
    "Pools::constant",
    "Pools::name",
    "Pools::switch",
];

/// Calls that take no memory, by the type that they belong to; the first are of none.
const FREE: [(&str, &str); 26] = [
    (
        "",
        "check_stream check_table count_instructions instruction instructions mnemonic \
         site stream_site stream_sites_into table_entries_into version",
    ),
    (
        "Caps",
        "bits contains difference from_bits from_bits_truncate insert intersects \
         is_empty iter name remove union",
    ),
    ("ChainRow", "new operands root steps tail"),
    ("Chunk", "new"),
    ("Constant", "needs"),
    (
        "Explained",
        "bases chunk other_path path refusal refusal_of_chunk refusal_outside rows",
    ),
    ("FileChain", "operands root steps tail"),
    (
        "FlatPools",
        "chains check constants fragments functions names new op_assignments operators \
         switches",
    ),
    ("Instruction", "decode opcode"),
    (
        "InstructionRow",
        "bytes field fields is_quiet mnemonic opcode",
    ),
    ("Instructions", "address is_whole"),
    ("Limits", "cases depth new size"),
    ("Operator", "symbol"),
    ("Malformed", "at fault index part"),
    (
        "Opcode",
        "decode fields flow from_tag is_quiet name tag width",
    ),
    (
        "Pools",
        "clear flat fragments functions new op_assignments operators set_fragments \
         set_functions set_op_assignments set_operators",
    ),
    (
        "Program",
        "chain_site chunks code into_parts new pools positions site site_of \
         strip_positions",
    ),
    (
        "ProgramFile",
        "callee caps chain chain_site chains chunks code constant constants function functions \
         id name names op_assignment op_assignments operator operators pools site \
         site_of source stream switch switches table",
    ),
    ("Range", "contains"),
    (
        "Refusal",
        "address chain_place chunk constant flaw line visited",
    ),
    ("Rejected", "error into_parts into_program program refusal"),
    ("Row", "address iterators operands reached_from"),
    ("Site", "known"),
    (
        "Verified",
        "caps chunks code depth depths flat frame into_program program site slots",
    ),
    ("Verifier", "limit new release"),
    ("VerifyError", "refusal"),
];

/// Calls of the module `engine` that take no memory of the library.
const FREE_OF_ENGINE: [(&str, &str); 7] = [
    (
        "Bounds",
        "calls memory new printed runs turns value_depth value_size",
    ),
    (
        "Engine",
        "bounds declare interrupt new register register_method",
    ),
    ("Fault", "address kind position text thrown"),
    ("Interrupt", "clear is_raised raise"),
    ("Script", "as_bytes"),
    ("State", "memory reset stop take_printed used"),
    ("Value", "type_name"),
];

/// Whether a function is in a list.
fn is_in(list: &[(&str, &str)], function: &Function) -> bool {
    list.iter()
        .any(|(of, names)| *of == function.of && names.split(' ').any(|name| name == function.name))
}

/// Whether a function is known to take no memory.
fn is_free(function: &Function) -> bool {
    is_in(&FREE, function)
}

/// Each public function is one that this file tests, that takes no memory, or that is known to end the process. One that is new
/// has to be tested here, or named above.
#[test]
fn no_public_call_is_left_out() {
    let own: String = include_str!("refused.rs").split_whitespace().collect();
    let all = public_functions();
    let known: usize = FREE.iter().map(|(_, names)| names.split(' ').count()).sum();
    for function in &all {
        let name = function.full_name();
        let is_tested = own.contains(&format!("refuse_each(\"{name}\","));
        let is_ending = ENDING.contains(&&*name);
        let kinds = [is_tested, is_free(function), is_ending];
        assert_eq!(
            kinds.iter().filter(|is| **is).count(),
            1,
            "{name}: is it tested, free, ending? {kinds:?}"
        );
        assert!(
            is_tested || !function.can_lack_memory(),
            "{name} can lack memory, and isn't tested"
        );
    }
    let free = all.iter().filter(|function| is_free(function)).count();
    assert_eq!((free, all.len() > free + 25), (known, true));
}

/// Each public function of the module `engine` is one that this file tests, or that takes no memory of the library.
#[test]
fn no_public_call_of_the_engine_is_left_out() {
    let own: String = include_str!("refused.rs").split_whitespace().collect();
    let all = engine_functions();
    for function in &all {
        let name = function.full_name();
        let is_tested = own.contains(&format!("refuse_library(\"{name}\","));
        assert!(
            is_tested != is_in(&FREE_OF_ENGINE, function),
            "{name}: is it tested, or free? {is_tested}"
        );
        assert!(is_tested || !function.can_fail(), "{name} isn't tested");
    }
    assert!(all.len() > 30, "{}", all.len());
}

/// Calls again and again, granting no request, one, two and so on, until all are granted. `call` answers whether it ran out of
/// memory; it must say so just where a request was refused.
fn refuse_each(what: &str, mut call: impl FnMut() -> bool) -> usize {
    for granted in 0..10_000 {
        IS_REFUSED.set(false);
        LEFT.set(Some(granted));
        let ran_out = call();
        LEFT.set(None);
        assert_eq!(ran_out, IS_REFUSED.get(), "{what}, {granted} granted");
        if !ran_out {
            return granted;
        }
    }
    panic!("{what} takes memory again and again");
}

/// As [`refuse_each`], of requests of the library alone. A call may also go on without memory that it only wanted to keep for later
/// calls.
fn refuse_library(what: &str, mut call: impl FnMut() -> bool) -> usize {
    IS_LIBRARY_ALONE.set(true);
    for granted in 0..10_000 {
        IS_REFUSED.set(false);
        LEFT.set(Some(granted));
        let ran_out = call();
        LEFT.set(None);
        assert!(IS_REFUSED.get() || !ran_out, "{what}, {granted} granted");
        if !IS_REFUSED.get() {
            IS_LIBRARY_ALONE.set(false);
            return granted;
        }
    }
    panic!("{what} takes memory again and again");
}

fn is_out_of_memory<T>(said: Result<T, VerifyError>) -> bool {
    matches!(said, Err(VerifyError::OutOfMemory))
}

/// The program, whether it is accepted or not, and whether memory ran out.
fn taken_back<P>(said: Result<Verified<P>, Rejected<P>>) -> (P, bool) {
    match said {
        Ok(verified) => (verified.into_program(), false),
        Err(rejected) => {
            let (program, error) = rejected.into_parts();
            assert_eq!(error, VerifyError::OutOfMemory);
            (program, true)
        }
    }
}

/// Two handlers, a loop that leaves an operand each round, and pools.
fn sample() -> (Vec<u8>, Pools) {
    let code = bytes("2305000000230a0000000218000019000016000002021d1e200000000c170000000213");
    let case = Case {
        target: 14,
        constant: 0,
    };
    let pools = Pools::new()
        .constant(Needs::Unknown)
        .name("name")
        .chain(
            Root::Temporary,
            &[Step::Index { operand: 0 }],
            Tail::Read,
            1,
        )
        .switch(&[case], &[14], 14);
    (code, pools)
}

/// More code than a thread keeps memory for.
fn long() -> Vec<u8> {
    [bytes("020b").repeat(3000), bytes("0213")].concat()
}

#[test]
fn verifying_answers_an_error() {
    let long = long();
    let none = Pools::new();
    let taken = refuse_each("verify", || {
        is_out_of_memory(verify(Caps::ALL, &long, &whole(&long), &none))
    });
    assert!(taken > 1, "{taken}");
    refuse_each("verify_into", || {
        let said = verify_into(Caps::ALL, &long, &whole(&long), &none, &mut [0]);
        is_out_of_memory(said)
    });
    let (code, pools) = sample();
    refuse_each("verify", || {
        is_out_of_memory(verify(Caps::ALL, &code, &whole(&code), &pools))
    });
    let mut chunks = whole(&long);
    refuse_each("tighten", || {
        is_out_of_memory(tighten(Caps::ALL, &long, &mut chunks, &none))
    });
    assert_eq!(chunks[0].max_stack, 1);
}

#[test]
fn a_verifier_answers_an_error_and_goes_on() {
    let (long, none) = (long(), Pools::new());
    let mut verifier = Verifier::new();
    refuse_each("Verifier::verify", || {
        let said = verifier.verify(Caps::ALL, &long, &whole(&long), &none);
        is_out_of_memory(said.map(<[u16]>::len))
    });
    let said = verifier.verify(Caps::ALL, &long, &whole(&long), &none);
    assert_eq!(said, Ok(&[1][..]));
    refuse_each("Verifier::verify_into", || {
        verifier.release();
        let said = verifier.verify_into(Caps::ALL, &long, &whole(&long), &none, &mut [0]);
        is_out_of_memory(said)
    });
    refuse_each("Verifier::explain", || {
        is_unexplained(verifier.explain(Caps::ALL, &long, &whole(&long), &none, 0))
    });
    let mut program = Some(Program::new(long.clone(), whole(&long).to_vec(), none));
    refuse_each("Verifier::verify_program", || {
        verifier.release();
        let said = verifier.verify_program(Caps::ALL, program.take().unwrap());
        let (back, ran_out) = taken_back(said);
        program = Some(back);
        ran_out
    });
    let program = program.unwrap();
    refuse_each("Program::verify", || {
        is_out_of_memory(program.verify(Caps::ALL))
    });
    assert_eq!(program.verify(Caps::ALL), Ok(vec![1]));
}

fn is_unread<T>(said: Result<T, FileError>) -> bool {
    match said {
        Ok(_) => false,
        Err(FileError::OutOfMemory) => true,
        Err(error) => panic!("{error}"),
    }
}

fn is_untightened(said: Result<Vec<u8>, TightenError>, wanted: &[u8]) -> bool {
    match said {
        Ok(tightened) => {
            assert_eq!(tightened, wanted);
            false
        }
        Err(TightenError::File(FileError::OutOfMemory))
        | Err(TightenError::Verify(VerifyError::OutOfMemory)) => true,
        Err(error) => panic!("{error}"),
    }
}

#[test]
fn reading_and_writing_files_answers_an_error() {
    let (bytes, limits) = (sample_file(), Limits::new());
    let taken = refuse_each("ProgramFile::read", || {
        is_unread(ProgramFile::read(&bytes, &limits))
    });
    assert!(taken > 20, "{taken}");
    let wanted = ProgramFile::tighten(&bytes, &limits).unwrap();
    let taken = refuse_each("ProgramFile::tighten", || {
        is_untightened(ProgramFile::tighten(&bytes, &limits), &wanted)
    });
    assert!(taken > 20, "{taken}");
    let verifier = Verifier::new();
    refuse_each("Verifier::tighten_file", || {
        is_untightened(verifier.tighten_file(&bytes, &limits), &wanted)
    });
    let taken = refuse_each("ProgramFile::strip", || {
        is_unread(ProgramFile::strip(&bytes, &limits))
    });
    assert!(taken > 20, "{taken}");
}

#[test]
fn verifying_files_answers_an_error() {
    let file = ProgramFile::try_from(&sample_file()[..]).unwrap();
    let refused: Refusal = *file.verify(Caps::NONE).unwrap_err().refusal().unwrap();
    refuse_each("ProgramFile::verify", || {
        is_out_of_memory(file.verify(Caps::ALL))
    });
    refuse_each("ProgramFile::explain", || {
        is_unexplained(file.explain(Caps::ALL, 2))
    });
    refuse_each("ProgramFile::explain", || {
        is_unexplained(file.explain(Caps::NONE, refused))
    });
    let mut verifier = Verifier::new();
    refuse_each("Verifier::verify_file", || {
        verifier.release();
        is_out_of_memory(verifier.verify_file(Caps::ALL, &file).map(<[u16]>::len))
    });
    let mut file = Some(file);
    refuse_each("Verifier::verify_program_file", || {
        verifier.release();
        let said = verifier.verify_program_file(Caps::ALL, file.take().unwrap());
        let (back, ran_out) = taken_back(said);
        file = Some(back);
        ran_out
    });
    refuse_each("ProgramFile::into_verified", || {
        let (back, ran_out) = taken_back(file.take().unwrap().into_verified(Caps::ALL));
        file = Some(back);
        ran_out
    });
    assert_eq!(file.unwrap().verify(Caps::ALL), Ok(vec![1, 1, 1]));
}

/// What is read of a file takes no memory, and neither does what a machine does.
#[test]
fn reading_a_file_again_takes_no_memory() {
    let file = ProgramFile::try_from(&sample_file()[..]).unwrap();
    let verified = file.into_verified(Caps::ALL).unwrap();
    IS_REFUSED.set(false);
    LEFT.set(Some(0));
    let counts = [
        verified.names().count(),
        verified.functions().count(),
        verified.constants().count(),
        verified.operators().count(),
        verified.op_assignments().count(),
        verified.chains().map(|chain| chain.steps().len()).sum(),
        verified.switches().count(),
    ];
    let place = verified.site(0);
    let decoded = grain::Instruction::decode(verified.code(), 0);
    let called = verified
        .callee(0, 2)
        .and_then(|chunk| verified.frame(chunk));
    let checked = verified.flat().check();
    LEFT.set(None);
    assert!(!IS_REFUSED.get() && decoded.is_some() && checked.is_ok() && place.is_some());
    assert!(called.is_some());
    assert_eq!(counts, [2, 2, 14, 2, 1, 3, 1]);
}

/// Whether an explanation ran out of memory. What it has is written, which takes none.
fn is_unexplained(said: Result<Explained<'_>, ExplainError>) -> bool {
    match said {
        Ok(explained) => {
            LEFT.set(Some(0));
            write!(Nowhere, "{explained}").unwrap();
            explained.rows().iter().for_each(|row| {
                explained.bases(row).for_each(drop);
            });
            false
        }
        Err(ExplainError::OutOfMemory) => true,
        Err(error) => panic!("{error}"),
    }
}

/// Where written text goes.
struct Nowhere;

impl Write for Nowhere {
    fn write_str(&mut self, _: &str) -> fmt::Result {
        Ok(())
    }
}

#[test]
fn explaining_answers_an_error() {
    let (code, pools) = sample();
    let program = Program::new(code.clone(), whole(&code).to_vec(), pools);
    let refused = *program.verify(Caps::ALL).unwrap_err().refusal().unwrap();
    let taken = refuse_each("Program::explain", || {
        is_unexplained(program.explain(Caps::ALL, refused))
    });
    assert!(taken > 3, "{taken}");
    let explained = program.explain(Caps::ALL, 0).unwrap();
    assert!(!explained.path().is_empty());
    let long = long();
    refuse_each("explain", || {
        is_unexplained(explain(Caps::ALL, &long, &whole(&long), &Pools::new(), 0))
    });
    refuse_each("Program::explain", || {
        is_unexplained(program.explain(Caps::NONE, refused))
    });
}

#[test]
fn the_package_takes_memory_for_the_explained_chunk_alone() {
    let (code, pools) = (vec![0x02; 1 << 20], Pools::new());
    let chunks = [Chunk::new(0, 2, 8)];
    LARGEST.set(0);
    let explained = explain(Caps::ALL, &code, &chunks, &pools, 0).unwrap();
    assert!(explained.refusal().is_some());
    assert!(LARGEST.get() < 100, "{}", LARGEST.get());
}

/// Calls without counting its requests: all of them are granted.
fn uncounted<T>(call: impl FnOnce() -> T) -> T {
    let counted = LEFT.replace(None);
    let answer = call();
    LEFT.set(counted);
    answer
}

/// Takes the lists that pools of the thread have left, so that the next pools begin with none.
fn take_spare_lists() {
    let mut pools = Pools::new();
    pools.add_constant(Caps::NONE).unwrap();
    std::mem::forget(pools);
}

#[test]
fn pools_answer_an_error_and_stay() {
    let steps = || {
        let step = |name| Step::Property {
            name,
            getter: 0,
            setter: 0,
        };
        (0..500).map(step)
    };
    // Each call is made on new pools. What is refused adds nothing.
    let add = |call: &dyn Fn(&mut Pools) -> Result<usize, PoolError>| {
        uncounted(take_spare_lists);
        let mut pools = Pools::new();
        match call(&mut pools) {
            Ok(_) => {
                assert_ne!(pools, Pools::new());
                false
            }
            Err(PoolError::OutOfMemory) => {
                assert_eq!(pools, Pools::new());
                true
            }
            Err(error) => panic!("{error}"),
        }
    };
    let needs = || (0..500).map(|_| Needs::Unknown);
    let names = || (0..500).map(|_| "another");
    refuse_each("Pools::add_constant", || {
        add(&|pools| pools.add_constant(Caps::ARRAY))
    });
    refuse_each("Pools::extend_constants", || {
        add(&|pools| pools.extend_constants(needs()))
    });
    refuse_each("Pools::add_name", || add(&|pools| pools.add_name("name")));
    refuse_each("Pools::extend_names", || {
        add(&|pools| pools.extend_names(names()))
    });
    refuse_each("Pools::add_chain", || {
        add(&|pools| pools.add_chain(Root::This, steps(), Tail::Read, 0))
    });
    refuse_each("Pools::add_switch", || {
        add(&|pools| pools.add_switch([], 0..500, 7))
    });
}

#[test]
fn tables_answer_an_error() {
    let table = bytes("0400010503010b250702010900");
    let stream = bytes("040101000301020106");
    refuse_each("table_entries", || table_entries(&table).is_err());
    refuse_each("stream_sites", || stream_sites(&stream).is_err());
    let code = bytes("0213");
    let mut program = Program::new(code.clone(), whole(&code).to_vec(), Pools::new());
    let positions = Positions {
        table: bytes("02000105010107"),
        stream: bytes("00"),
    };
    let mut given = None;
    refuse_each("Program::attach_positions", || {
        given = Some(uncounted(|| positions.clone()));
        program.attach_positions(given.take().unwrap()).is_err()
    });
    refuse_each("Program::entries", || program.entries().is_err());
    refuse_each("Program::chain_sites", || program.chain_sites().is_err());
    let mut program = Some(program);
    refuse_each("Program::into_verified", || {
        let said = program.take().unwrap().into_verified(Caps::ALL);
        let ran_out = said.is_err();
        program = Some(match said {
            Ok(verified) => verified.into_program(),
            Err(rejected) => rejected.into_program(),
        });
        ran_out
    });
    let mut program = program.unwrap();
    refuse_each("Program::tighten", || program.tighten(Caps::ALL).is_err());
    assert_eq!(program.chunks(), [Chunk::new(0, 2, 1)]);
}

const SCRIPT: &str = "
    fn f(n) { let a = [n, \"text\"]; a.push(double(n)); print(a); a }
    fn asks(n) { let a = [n]; try { a.ask([7]); } catch (e) { a = e; } [a, a] }
    fn known() { kept }
    f(1)";

fn engine() -> Engine {
    let mut engine = Engine::new();
    engine.register("double", |n: i64| n * 2).declare("ask", 2);
    engine
}

/// Whether a call of a state ran out of memory. A script can't catch that.
fn ran_out<T>(said: Result<T, RunError>) -> bool {
    match said {
        Ok(_) => false,
        Err(RunError::OutOfMemory) => true,
        Err(RunError::Fault(fault)) => {
            assert!(fault.text().starts_with("Out of memory"), "{fault}");
            true
        }
        Err(error) => panic!("{error}"),
    }
}

#[test]
fn an_engine_answers_an_error() {
    let engine = engine();
    let script = engine.compile(SCRIPT).unwrap();
    let taken = refuse_library("Engine::compile", || match engine.compile(SCRIPT) {
        Ok(again) => again != script,
        Err(CompileError::OutOfMemory) => true,
        Err(error) => panic!("{error}"),
    });
    assert!(taken > 50, "{taken}");
    let modules = || {
        [
            ("a", "import \"b\" as b; fn f(n) { b::g(n) }"),
            ("b", "fn g(n) { [n] }"),
        ]
    };
    let text = "import \"a\" as a; a::f(1)";
    let whole = engine.compile_with_modules(text, modules()).unwrap();
    let taken = refuse_library("Engine::compile_with_modules", || {
        match engine.compile_with_modules(text, modules()) {
            Ok(again) => again != whole,
            Err(CompileError::OutOfMemory) => true,
            Err(error) => panic!("{error}"),
        }
    });
    assert!(taken > 50, "{taken}");
    let taken = refuse_library("Engine::load", || match engine.load(script.as_bytes()) {
        Ok(again) => again != script,
        Err(LoadError::OutOfMemory) => true,
        Err(error) => panic!("{error}"),
    });
    assert!(taken > 20, "{taken}");
    refuse_library("Engine::state", || ran_out(engine.state(&script)));
    refuse_library("Engine::eval", || match engine.eval::<Value>(SCRIPT) {
        Ok(_) => false,
        Err(error) => match error.downcast::<RunError>() {
            Ok(error) => ran_out(Err::<Value, _>(*error)),
            Err(error) => error.to_string() == CompileError::OutOfMemory.to_string(),
        },
    });
}

/// A state of the script, that has not run yet.
fn state() -> State {
    let engine = engine();
    engine.state(&engine.compile(SCRIPT).unwrap()).unwrap()
}

/// Has the state do again what needs no memory that isn't there.
fn goes_on(state: &mut State) {
    state.take_printed();
    let value = state.call::<Vec<Value>>("f", (4,));
    assert_eq!(value, Ok(vec![4.into(), "text".into(), 8.into()]));
}

#[test]
fn runs_of_a_state_answer_an_error() {
    let mut state = state();
    let taken = refuse_library("State::run", || ran_out(state.run::<Value>()));
    assert!(taken > 5, "{taken}");
    refuse_library("State::call", || ran_out(state.call::<Value>("f", (4,))));
    refuse_library("State::resume", || {
        uncounted(|| {
            state.start().unwrap();
            assert_eq!(state.step(1), Ok(RunStep::Paused));
        });
        ran_out(state.resume::<Value>())
    });
    refuse_library("State::start", || {
        let ran_out = ran_out(state.start());
        uncounted(|| state.stop());
        ran_out
    });
    refuse_library("State::start_call", || {
        let ran_out = ran_out(state.start_call("f", (1,)));
        uncounted(|| state.stop());
        ran_out
    });
    goes_on(&mut state);
}

/// Begins a run that waits for an answer.
fn wait(state: &mut State) {
    state.start_call("asks", (1,)).unwrap();
    assert!(matches!(state.step(1000), Ok(RunStep::Calls(_))));
}

#[test]
fn steps_of_a_state_answer_an_error() {
    let mut state = state();
    let list = || uncounted(|| Value::from(["a", "b"]));
    let taken = refuse_library("State::step", || {
        uncounted(|| state.start_call("asks", (1,)).unwrap());
        let called = state.step(1000);
        if called.is_err() {
            return ran_out(called);
        }
        uncounted(|| {
            state.set_receiver(["c"]).unwrap();
            state.answer(5).unwrap();
        });
        ran_out(state.step(1000))
    });
    assert!(taken > 3, "{taken}");
    refuse_library("State::answer", || {
        uncounted(|| wait(&mut state));
        let ran_out = ran_out(state.answer(list()));
        uncounted(|| state.stop());
        ran_out
    });
    refuse_library("State::set_receiver", || {
        uncounted(|| wait(&mut state));
        let ran_out = ran_out(state.set_receiver(list()));
        uncounted(|| state.stop());
        ran_out
    });
    refuse_library("State::set", || ran_out(state.set("kept", list())));
    refuse_library("State::get", || ran_out(state.get::<Value>("kept")));
    let of = |number| Foreign { kind: 1, number };
    for number in 0..9 {
        state.set("kept", of(number)).unwrap();
    }
    let mut gone = Vec::new();
    refuse_library("State::dropped", || match state.dropped() {
        Ok(dropped) => {
            gone = dropped;
            false
        }
        said => ran_out(said),
    });
    assert_eq!(gone, (0..8).map(of).collect::<Vec<_>>());
    state.set("kept", list()).unwrap();
    assert_eq!(state.get("kept"), Ok(list()));
    goes_on(&mut state);
}

/// What ends runs takes no memory of the library, and neither does the output.
#[test]
fn a_state_ends_runs_without_memory() {
    let mut state = state();
    wait(&mut state);
    state.start_call("f", (1,)).unwrap();
    IS_REFUSED.set(false);
    IS_LIBRARY_ALONE.set(true);
    LEFT.set(Some(0));
    state.stop();
    state.stop();
    let printed = state.take_printed();
    state.reset();
    LEFT.set(None);
    IS_LIBRARY_ALONE.set(false);
    assert_eq!((IS_REFUSED.get(), &*printed), (false, ""));
    goes_on(&mut state);
}
