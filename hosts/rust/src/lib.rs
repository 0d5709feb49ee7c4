//! The proved verifier for untrusted Rhai Grain bytecode, in the host's process.
//!
//! [`verify`] and [`Program::into_verified`] say whether a compiled script may run in place, and how many operands each of its
//! chunks needs. No run of an accepted program lacks an operand, an iterator or a handler, or leaves its chunk, on a machine that
//! does [what a host must do](crate#what-a-host-must-do). The library of this package is proved to accept exactly the programs of
//! FORMAT.md, unless memory runs out. The package is plain Rust around the library's C functions, tested and not proved.
//!
//! A stranger's program file:
//!
//! ```
//! use grain::{Caps, Limits, ProgramFile, VerifiedFile};
//!
//! fn accept(untrusted: &[u8]) -> Result<VerifiedFile, Box<dyn std::error::Error>> {
//!     let file = ProgramFile::read(untrusted, &Limits::new())?;
//!     Ok(file.into_verified(Caps::FUNCTION | Caps::ARRAY)?)
//! }
//!
//! let verified = accept(include_bytes!("../examples/fib.grain"))?;
//! assert_eq!((verified.depths().len(), verified.slots()[1]), (2, 1));
//! # Ok::<(), Box<dyn std::error::Error>>(())
//! ```
//!
//! A program that the host builds:
//!
//! ```
//! use grain::{Caps, Case, Chunk, Pools, Program, Root, Step, Tail};
//!
//! let pools = Pools::new()
//!     .constant(Caps::NONE)
//!     .name("len")
//!     .chain(Root::Temporary, &[Step::Property { name: 0, getter: 0, setter: 0 }], Tail::Read, 0)
//!     .switch(&[Case { target: 4, constant: 0 }], &[], 6);
//! let code = vec![0x02, 0x18, 0, 0, 0x02, 0x13, 0x02, 0x13, 0x02, 0x16, 0, 0, 0x13];
//! let chunks = vec![Chunk::new(0, 8, 2), Chunk::new(8, 13, 1)];
//! let program = Program::new(code, chunks, pools);
//!
//! let rejected = program.into_verified(Caps::ALL - Caps::PROPERTY).unwrap_err();
//! let refusal = rejected.refusal().unwrap();
//! assert_eq!(refusal.to_string(), "chunk 1: the instruction at 9 needs PROPERTY, which the host doesn't have");
//! println!("{}", rejected.program().explain(Caps::ALL - Caps::PROPERTY, refusal)?);
//!
//! let verified = rejected.into_program().into_verified(Caps::ALL)?;
//! assert_eq!(verified.depths(), [2, 1]);
//! # Ok::<(), Box<dyn std::error::Error>>(())
//! ```
//!
//! | To | Use |
//! |---|---|
//! | verify one program | [`Program::into_verified`], or [`verify`] if the lists are the host's own |
//! | verify many, within a limit | [`Verifier`] |
//! | say why not | [`VerifyError`], [`Refusal`], [`Flaw`] |
//! | show why not | [`Program::explain`], [`Explained`] |
//! | fill pools | [`Pools`], or [`FlatPools`] if the lists are the host's own |
//! | read a program file | [`ProgramFile::read`], with [`Limits`] |
//! | verify one | [`ProgramFile::into_verified`] |
//! | write one again | [`ProgramFile::tighten`], [`ProgramFile::strip`] |
//! | run what is accepted | [`Verified`], [`VerifiedFile`], [`Frame`], [`Instruction`], [`ProgramFile::callee`] |
//! | run a script in this process | [`engine::Engine`] |
//! | find lines | [`Verified::site`], [`site`], [`stream_site`] |
//!
//! `examples/engine.rs` is a host of scripts in 30 lines. From a program file to a run on a machine of the host's own,
//! `examples/script.rs` is a whole host.
//!
//! # What a host must do
//!
//! - It runs only what was accepted, unchanged, with room for as many operands as the depth of each chunk. [`Verified`] keeps
//!   the program and the depths together.
//! - Its constants, names, functions, chains and switches are those that the verified pools describe, by the same indices.
//! - It has the capabilities for which the program was verified, and knows what constants can do that are [`Needs::Unknown`].
//! - Its machine steps as FORMAT.md says ("Verification").
//! - When a handler catches a fault, the stacks still have at least what they had when the handler was armed. Accepted code
//!   ensures this at every instruction except the quiet ones ([`Opcode::is_quiet`]). At these the machine must never fault, or
//!   only with at least that much left.
//! - It never reads or writes a slot that it hasn't allocated. A slot is any 16-bit number, and nothing tests it.
//!   [`Verified::slots`] says how many slots each chunk names. A machine that allocates as many for a call, and at least one for
//!   each parameter, needs no test of a slot.
//!
//! Acceptance says nothing about scopes, values and their types, or what a call does. It doesn't say that a run ends.
//!
//! # What to bound for hostile input
//!
//! - The length of the code, and of each list of the pools: time and memory grow with them.
//! - The work: chunks may overlap, so that many short chunks cost as much as long code. [`Verifier::limit`] bounds it.
//! - The depth of constants: verification sees only what they need. [`Limits`] bounds it for program files. Reading one takes
//!   about 1,200 bytes of call stack for each level, of which there are 256 at most.
//! - The variables of a call: `DECLARE_LOCAL` takes the next slot, which a hostile program can do without end. And the steps of a
//!   run, and how deep calls are nested.
//!
//! No call waits or prints. No call ends the process if the allocator refuses, except the chained calls of [`Pools`], clones, and
//! what [`engine`] does with values, which take memory as a `Vec` does. That is tested of each other public function.
//!
//! # Platform
//!
//! x86-64 Linux, on processors with `popcnt` (x86-64-v2), and Rust 1.74. The package links `libgrain.a`: that in the folder that
//! GRAIN_LIB_DIR names, else `lib/libgrain.a` inside the package, else one next to the package, in `../lib` or `../out`. A library
//! of another interface doesn't link.
#![warn(missing_docs)]

#[cfg(doctest)]
#[doc = include_str!("../README.md")]
struct Readme;

mod capabilities;
mod changed;
mod code;
pub mod engine;
mod error;
mod explained;
mod file;
mod file_error;
mod flat;
mod items;
mod limits;
mod listing;
mod mnemonics;
mod numbered;
mod opcode;
mod places;
mod pools;
mod program;
mod raw;
mod refusal;
mod rows;
mod tables;
mod text;
mod values;
mod verified;
mod verifier;

pub use capabilities::{Caps, CapsIter, UnknownCap};
pub use changed::{Stripped, TightenError};
pub use code::{
    count_instructions, instruction, instructions, Field, InstructionRow, Instructions, Kind,
};
pub use error::{ExplainError, VerifyError};
pub use explained::{explain, Base, Bases, Explained, Row, Subject};
pub use file::ProgramFile;
pub use file_error::{FileError, FileFault, FilePart, Malformed};
pub use flat::{FlatPools, PoolsFlaw, PoolsList};
pub use items::{FileChain, FileFunction, FileStep, FileSteps, FileSwitch, OpAssignment, Range};
pub use limits::Limits;
pub use mnemonics::mnemonic;
pub use opcode::{Flow, Instruction, Opcode};
pub use places::{ChainPart, ChainPlace};
pub use pools::{PoolError, Pools};
pub use program::{AttachError, Positions, Program};
pub use refusal::{Flaw, Refusal};
pub use rows::{Case, ChainRow, Constant, Needs, Root, Step, StepRow, SwitchRow, Tail};
pub use tables::{
    check_stream, check_table, site, stream_site, stream_sites, stream_sites_into, table_entries,
    table_entries_into, Entry, ReadError, Site, TableFlaw,
};
pub use text::Text;
pub use values::{Entries, Operator, Value, Values};
pub use verified::{Frame, Rejected, RejectedFile, Source, Verified, VerifiedFile};
pub use verifier::Verifier;

/// A part of the code that is run by itself.
#[repr(C)]
#[derive(Clone, Copy, Debug, PartialEq, Eq, Hash)]
pub struct Chunk {
    /// The address of the first instruction.
    pub entry: u32,
    /// The address past the last instruction.
    pub end: u32,
    /// How many operands the chunk declares that it needs at most.
    pub max_stack: u16,
}

impl Chunk {
    /// A chunk from one address up to another, which declares this many operands.
    #[must_use]
    pub const fn new(entry: u32, end: u32, max_stack: u16) -> Chunk {
        Chunk {
            entry,
            end,
            max_stack,
        }
    }
}

/// Verifies a program for a host with these capabilities, and returns the depth of each chunk: the greatest number of operands
/// that any run of it reaches.
///
/// `pools` are [`&Pools`](Pools) or [`FlatPools`]. What acceptance requires of the machine that runs the code is listed at
/// [what a host must do](crate#what-a-host-must-do). [`Program::into_verified`] keeps the verdict and the program together.
///
/// ```
/// use grain::{verify, Caps, Chunk, Pools};
///
/// let code = [0x02, 0x02, 0x0b, 0x13]; // Unit, Unit, Pop, Return
/// assert_eq!(verify(Caps::NONE, &code, &[Chunk::new(0, 4, 2)], &Pools::new()), Ok(vec![2]));
/// assert!(verify(Caps::NONE, &code, &[Chunk::new(0, 4, 1)], &Pools::new()).is_err());
/// ```
///
/// # Errors
/// [`VerifyError::Refused`] if the program is refused; all others say why nothing was verified.
pub fn verify<'a>(
    caps: Caps,
    code: &[u8],
    chunks: &[Chunk],
    pools: impl Into<FlatPools<'a>>,
) -> Result<Vec<u16>, VerifyError> {
    let mut depths = verifier::zeroed(chunks.len())?;
    verify_into(caps, code, chunks, pools, &mut depths)?;
    Ok(depths)
}

/// Verifies as [`verify`] does, writes the depths to the first entries of a list of the caller's, and returns how many instructions
/// were visited, summed over the chunks.
///
/// A thread keeps the memory in which it verified small programs, with up to 3 KiB of code: less than 256 KiB. [`Verifier`]
/// keeps it for larger ones.
///
/// ```
/// use grain::{verify_into, Caps, Chunk, FlatPools};
///
/// let mut depths = [0; 1];
/// let visited = verify_into(Caps::NONE, &[0x02, 0x13], &[Chunk::new(0, 2, 1)], FlatPools::new(), &mut depths)?;
/// assert_eq!((visited, depths), (2, [1]));
/// # Ok::<(), grain::VerifyError>(())
/// ```
///
/// # Errors
/// Those of [`verify`], and [`VerifyError::TooFewDepths`] if there are fewer places than chunks. Then nothing is written.
pub fn verify_into<'a>(
    caps: Caps,
    code: &[u8],
    chunks: &[Chunk],
    pools: impl Into<FlatPools<'a>>,
    depths: &mut [u16],
) -> Result<u64, VerifyError> {
    let mut room = verifier::Room::of_depths(depths);
    verifier::judge(caps, code, chunks, &pools.into(), &mut room)
}

/// Verifies as [`verify`] does, has each chunk declare its depth, and returns how many instructions were visited. With these
/// chunks the program is accepted again.
///
/// ```
/// use grain::{tighten, Caps, Chunk, Pools};
///
/// let mut chunks = [Chunk::new(0, 2, 100)];
/// assert_eq!(tighten(Caps::NONE, &[0x02, 0x13], &mut chunks, &Pools::new()), Ok(2));
/// assert_eq!(chunks[0].max_stack, 1);
/// ```
///
/// # Errors
/// Those of [`verify`]; then the chunks stay as they were.
pub fn tighten<'a>(
    caps: Caps,
    code: &[u8],
    chunks: &mut [Chunk],
    pools: impl Into<FlatPools<'a>>,
) -> Result<u64, VerifyError> {
    verifier::tighten(caps, code, chunks, &pools.into())
}

/// The version of the linked library, such as `0.2.0`.
#[must_use]
pub fn version() -> &'static str {
    // SAFETY: the library returns a text that it never changes, ended by 0.
    let version = unsafe { std::ffi::CStr::from_ptr(raw::grain_version()) };
    version.to_str().unwrap_or_default()
}
