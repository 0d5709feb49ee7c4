//! Why nothing is verified or explained.
use crate::flat::PoolsFlaw;
use crate::pools::PoolError;
use crate::refusal::Refusal;
use crate::text::Buffer;
use std::error::Error;
use std::fmt::{self, Write};

/// Why a program isn't accepted: it is refused, or the host failed to verify it.
///
/// Only [`VerifyError::Refused`] and [`VerifyError::NotFlat`] are the fault of who made the program. [`VerifyError::TooMuchWork`]
/// and [`VerifyError::TooLarge`] say that it goes beyond a limit.
///
/// ```
/// use grain::{verify, Caps, Chunk, Pools, VerifyError};
///
/// match verify(Caps::NONE, &[0x39, 0x13], &[Chunk::new(0, 2, 1)], &Pools::new()) {
///     Ok(depths) => println!("accepted: {depths:?}"),
///     Err(VerifyError::Refused(refusal)) => println!("refused: {refusal}"),
///     Err(failure) => println!("not verified: {failure}"),
/// }
/// ```
#[derive(Clone, Copy, Debug, PartialEq, Eq, Hash)]
#[non_exhaustive]
pub enum VerifyError {
    /// The program is refused.
    Refused(Refusal),
    /// The allocator refused.
    OutOfMemory,
    /// The chunks span more of the code than the limit allows ([`Verifier::limit`](crate::Verifier::limit)).
    TooMuchWork,
    /// The code, or a list of the pools, is longer than 32 bits can say.
    TooLarge,
    /// No pools have the flat form of the caller's lists.
    NotFlat(PoolsFlaw),
    /// There are fewer places for depths than chunks.
    TooFewDepths,
    /// The library returned a status that this package doesn't know.
    Unknown(
        /// The status.
        u32,
    ),
}

impl VerifyError {
    /// Why the program is refused, if it is.
    #[must_use]
    pub fn refusal(&self) -> Option<&Refusal> {
        match self {
            VerifyError::Refused(refusal) => Some(refusal),
            _ => None,
        }
    }
}

/// It prints all that is known, as in `refused: chunk 0: the instruction at 0 needs 1 operand, and there are 0`.
impl fmt::Display for VerifyError {
    fn fmt(&self, f: &mut fmt::Formatter<'_>) -> fmt::Result {
        let mut text = Buffer::<LONGEST>::new();
        match self {
            VerifyError::Refused(refusal) => write!(text, "refused: {refusal}")?,
            VerifyError::OutOfMemory => text.push("out of memory"),
            VerifyError::TooMuchWork => {
                text.push("the chunks span more of the code than the limit allows");
            }
            VerifyError::TooLarge => text.push("the code or a list of the pools is too long"),
            VerifyError::NotFlat(flaw) => write!(text, "{flaw}")?,
            VerifyError::TooFewDepths => text.push("there are fewer places for depths than chunks"),
            VerifyError::Unknown(status) => write!(text, "unknown status {status}")?,
        }
        f.pad(&text)
    }
}

impl Error for VerifyError {}

/// No text of an error is longer.
const LONGEST: usize = 400;

impl From<Refusal> for VerifyError {
    fn from(refusal: Refusal) -> VerifyError {
        VerifyError::Refused(refusal)
    }
}

impl From<PoolError> for VerifyError {
    fn from(error: PoolError) -> VerifyError {
        match error {
            PoolError::OutOfMemory => VerifyError::OutOfMemory,
            PoolError::TooLarge => VerifyError::TooLarge,
        }
    }
}

/// Why nothing is explained.
#[derive(Clone, Copy, Debug, PartialEq, Eq, Hash)]
#[non_exhaustive]
pub enum ExplainError {
    /// The program has no chunk with this index.
    NoChunk(
        /// The index.
        usize,
    ),
    /// The code isn't whole instructions whose indices are in bounds, so that no chunk can be explained. The refusal says where,
    /// and can be explained itself.
    BadCode(Refusal),
    /// The allocator refused.
    OutOfMemory,
    /// The chunk spans more of the code than the limit allows ([`Verifier::limit`](crate::Verifier::limit)).
    TooMuchWork,
    /// The code, or a list of the pools, is longer than 32 bits can say.
    TooLarge,
    /// No pools have the flat form of the caller's lists.
    NotFlat(PoolsFlaw),
    /// The library returned a status that this package doesn't know.
    Unknown(
        /// The status.
        u32,
    ),
}

impl fmt::Display for ExplainError {
    fn fmt(&self, f: &mut fmt::Formatter<'_>) -> fmt::Result {
        let mut text = Buffer::<LONGEST>::new();
        match self {
            ExplainError::NoChunk(index) => write!(text, "the program has no chunk {index}")?,
            ExplainError::BadCode(refusal) => {
                write!(text, "no chunk of this code can be explained: {refusal}")?;
            }
            ExplainError::OutOfMemory => text.push("out of memory"),
            ExplainError::TooMuchWork => {
                text.push("the chunk spans more of the code than the limit allows");
            }
            ExplainError::TooLarge => text.push("the code or a list of the pools is too long"),
            ExplainError::NotFlat(flaw) => write!(text, "{flaw}")?,
            ExplainError::Unknown(status) => write!(text, "unknown status {status}")?,
        }
        f.pad(&text)
    }
}

impl Error for ExplainError {}

/// What hinders a verification hinders an explanation too. A refusal here is that of bad code.
impl From<VerifyError> for ExplainError {
    fn from(error: VerifyError) -> ExplainError {
        match error {
            VerifyError::Refused(refusal) => ExplainError::BadCode(refusal),
            VerifyError::OutOfMemory => ExplainError::OutOfMemory,
            VerifyError::TooMuchWork => ExplainError::TooMuchWork,
            VerifyError::TooLarge => ExplainError::TooLarge,
            VerifyError::NotFlat(flaw) => ExplainError::NotFlat(flaw),
            VerifyError::TooFewDepths => ExplainError::Unknown(crate::raw::SHORT),
            VerifyError::Unknown(status) => ExplainError::Unknown(status),
        }
    }
}
