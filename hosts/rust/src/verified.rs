//! Acceptance as a value.
use crate::capabilities::Caps;
use crate::error::VerifyError;
use crate::file::ProgramFile;
use crate::flat::FlatPools;
use crate::program::Program;
use crate::refusal::Refusal;
use crate::tables::Site;
use crate::verifier::Found;
use crate::Chunk;
use std::error::Error;
use std::fmt;
use std::ops::Deref;

mod sealed {
    pub trait Sealed {}
    impl Sealed for crate::Program {}
    impl Sealed for crate::ProgramFile {}
}

/// What a [`Verified`] has been made of: a [`Program`] or a [`ProgramFile`]. A machine that takes a `Verified<P>` for any
/// `P: Source` runs both.
///
/// ```
/// use grain::{Instruction, Source, Verified};
///
/// /// How many instructions a chunk has.
/// fn count<P: Source>(verified: &Verified<P>, chunk: usize) -> usize {
///     let chunk = verified.chunks()[chunk];
///     let (mut address, mut count) = (chunk.entry, 0);
///     while address < chunk.end {
///         let Some((_, next)) = Instruction::decode(verified.code(), address) else { break };
///         (address, count) = (next, count + 1);
///     }
///     count
/// }
/// ```
pub trait Source: sealed::Sealed {
    /// The code.
    fn code(&self) -> &[u8];
    /// The chunks.
    fn chunks(&self) -> &[Chunk];
    /// The pools in their flat form.
    fn flat(&self) -> FlatPools<'_>;
    /// The line and the column that are recorded for an address of the code.
    fn site(&self, address: u32) -> Option<Site>;
}

impl Source for Program {
    fn code(&self) -> &[u8] {
        self.code()
    }

    fn chunks(&self) -> &[Chunk] {
        self.chunks()
    }

    fn flat(&self) -> FlatPools<'_> {
        self.pools().flat()
    }

    fn site(&self, address: u32) -> Option<Site> {
        self.site(address)
    }
}

impl Source for ProgramFile {
    fn code(&self) -> &[u8] {
        self.code()
    }

    fn chunks(&self) -> &[Chunk] {
        self.chunks()
    }

    fn flat(&self) -> FlatPools<'_> {
        self.pools()
    }

    fn site(&self, address: u32) -> Option<Site> {
        self.site(address)
    }
}

/// A program that is accepted, with the capabilities of the host that it was verified for and the depths of its chunks. The program
/// is a [`Program`], or a [`ProgramFile`] ([`VerifiedFile`]).
///
/// It can't be changed, and only [`Program::into_verified`], [`ProgramFile::into_verified`] and two calls of a
/// [`Verifier`](crate::Verifier) make one. So a machine that takes a `Verified` never runs what nobody has verified. What is
/// required of such a machine is listed at [what a host must do](crate#what-a-host-must-do).
///
/// It dereferences to the program, which may be read and not changed.
///
/// ```
/// use grain::{Caps, Chunk, Pools, Program};
///
/// let program = Program::new(vec![0x02, 0x02, 0x0b, 0x13], vec![Chunk::new(0, 4, 8)], Pools::new());
/// let verified = program.into_verified(Caps::NONE)?;
/// assert_eq!((verified.depth(0), verified.depths()), (Some(2), &[2][..]));
/// assert_eq!(verified.code(), [0x02, 0x02, 0x0b, 0x13]);
/// assert_eq!(verified.pools(), &Pools::new());
///
/// let program = Program::new(vec![0x0b, 0x13], vec![Chunk::new(0, 2, 8)], Pools::new());
/// let rejected = program.into_verified(Caps::NONE).unwrap_err();
/// assert_eq!(rejected.refusal().unwrap().address(), Some(0));
/// assert_eq!(rejected.into_program().code(), [0x0b, 0x13]);
/// # Ok::<(), grain::Rejected>(())
/// ```
#[derive(Clone, Debug, PartialEq, Eq, Hash)]
pub struct Verified<P = Program> {
    program: P,
    caps: Caps,
    found: Found,
}

/// A program file that is accepted.
pub type VerifiedFile = Verified<ProgramFile>;

/// A program file that isn't accepted, and why.
pub type RejectedFile = Rejected<ProgramFile>;

impl<P> Verified<P> {
    /// The program with the result of its verification.
    // The error has the program in it; a box would take memory, which may be what is lacking.
    #[allow(clippy::result_large_err)]
    pub(crate) fn new(
        program: P,
        caps: Caps,
        found: Result<Found, VerifyError>,
    ) -> Result<Verified<P>, Rejected<P>> {
        match found {
            Ok(found) => Ok(Verified {
                program,
                caps,
                found,
            }),
            Err(error) => Err(Rejected { program, error }),
        }
    }

    /// The program.
    #[inline]
    #[must_use]
    pub fn program(&self) -> &P {
        &self.program
    }

    /// The capabilities of the host that it was verified for: a host that runs it must have them.
    #[must_use]
    pub fn caps(&self) -> Caps {
        self.caps
    }

    /// The depth of each chunk: the greatest number of operands that any run of it reaches.
    #[inline]
    #[must_use]
    pub fn depths(&self) -> &[u16] {
        &self.found.depths
    }

    /// The depth of one chunk.
    #[inline]
    #[must_use]
    pub fn depth(&self, chunk: usize) -> Option<u16> {
        self.found.depths.get(chunk).copied()
    }

    /// How many slots each chunk names: one more than the greatest slot of an instruction of the chunk or of the root of a chain
    /// there, or 0.
    ///
    /// Verification tests no slot. A machine that has as many for a call, and as many as the function has parameters if these are
    /// more, needs no test of a slot. `DECLARE_LOCAL` takes the next slot, which a hostile program can do without end: the
    /// machine must bound it.
    #[inline]
    #[must_use]
    pub fn slots(&self) -> &[u32] {
        &self.found.slots
    }

    /// The program, which may be changed again.
    #[must_use]
    pub fn into_program(self) -> P {
        self.program
    }
}

impl<P: Source> Verified<P> {
    /// Its code.
    #[inline]
    #[must_use]
    pub fn code(&self) -> &[u8] {
        self.program.code()
    }

    /// Its chunks. Those of a file are that of the top level, and then those of the functions.
    #[inline]
    #[must_use]
    pub fn chunks(&self) -> &[Chunk] {
        self.program.chunks()
    }

    /// Its pools in their flat form.
    #[must_use]
    pub fn flat(&self) -> FlatPools<'_> {
        self.program.flat()
    }

    /// The line and the column that are recorded for an address of the code.
    #[must_use]
    pub fn site(&self, address: u32) -> Option<Site> {
        self.program.site(address)
    }
}

impl Verified<ProgramFile> {
    /// What a machine allocates for a call of a chunk, and where the call begins.
    ///
    /// ```
    /// use grain::{Caps, ProgramFile};
    ///
    /// let file = ProgramFile::try_from(&include_bytes!("../examples/fib.grain")[..])?;
    /// let verified = file.into_verified(Caps::FUNCTION)?;
    /// let frame = verified.frame(1).unwrap();
    /// assert_eq!((frame.entry, frame.depth, frame.slots), (verified.chunks()[1].entry, 3, 1));
    /// # Ok::<(), Box<dyn std::error::Error>>(())
    /// ```
    #[must_use]
    pub fn frame(&self, chunk: usize) -> Option<Frame> {
        let index = u32::try_from(chunk).ok()?.checked_sub(1);
        let function = index.and_then(|index| self.program.function(index));
        let parameters = function.map_or(0, |function| function.parameters.len());
        Some(Frame {
            entry: self.chunks().get(chunk)?.entry,
            depth: self.depth(chunk)?.into(),
            slots: parameters.max(*self.slots().get(chunk)? as usize),
        })
    }
}

/// What a call of a chunk needs ([`VerifiedFile::frame`](Verified::frame)).
#[derive(Clone, Copy, Debug, PartialEq, Eq, Hash)]
#[non_exhaustive]
pub struct Frame {
    /// The address of the first instruction.
    pub entry: u32,
    /// How many operands there are at most: the depth of the chunk.
    pub depth: usize,
    /// How many slots to allocate: as many as the chunk names, or as many as its function has parameters if these are more. Then
    /// no slot needs a test. `DECLARE_LOCAL` takes the next slot, which may lie past these.
    pub slots: usize,
}

impl<P> Deref for Verified<P> {
    type Target = P;

    #[inline]
    fn deref(&self) -> &P {
        &self.program
    }
}

impl From<Verified> for Program {
    fn from(verified: Verified) -> Program {
        verified.into_program()
    }
}

impl From<VerifiedFile> for ProgramFile {
    fn from(verified: VerifiedFile) -> ProgramFile {
        verified.into_program()
    }
}

/// A program that isn't accepted, and why. The program is a [`Program`], or a [`ProgramFile`] ([`RejectedFile`]).
///
/// It prints as its [`VerifyError`] does.
#[derive(Clone, PartialEq, Eq)]
pub struct Rejected<P = Program> {
    program: P,
    error: VerifyError,
}

impl<P> Rejected<P> {
    /// Why it isn't accepted.
    #[must_use]
    pub fn error(&self) -> &VerifyError {
        &self.error
    }

    /// Why it is refused, if it is.
    #[must_use]
    pub fn refusal(&self) -> Option<&Refusal> {
        self.error.refusal()
    }

    /// The program.
    #[must_use]
    pub fn program(&self) -> &P {
        &self.program
    }

    /// The program.
    #[must_use]
    pub fn into_program(self) -> P {
        self.program
    }

    /// The program and the error.
    #[must_use]
    pub fn into_parts(self) -> (P, VerifyError) {
        (self.program, self.error)
    }
}

impl<P> fmt::Display for Rejected<P> {
    fn fmt(&self, f: &mut fmt::Formatter<'_>) -> fmt::Result {
        self.error.fmt(f)
    }
}

/// Without the program, which may be long.
impl<P> fmt::Debug for Rejected<P> {
    fn fmt(&self, f: &mut fmt::Formatter<'_>) -> fmt::Result {
        f.debug_struct("Rejected")
            .field("error", &self.error)
            .finish_non_exhaustive()
    }
}

impl<P> Error for Rejected<P> {}

impl<P> From<Rejected<P>> for VerifyError {
    fn from(rejected: Rejected<P>) -> VerifyError {
        rejected.error
    }
}
