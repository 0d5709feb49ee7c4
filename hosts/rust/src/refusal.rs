//! Why a program is refused.
use crate::capabilities::Caps;
use crate::code::Kind;
use crate::flat::FlatPools;
use crate::places::{self, ChainPlace};
use crate::raw;
use crate::text::{Buffer, Text};
use std::fmt::{self, Write};

/// Why a program is refused: which chunk, which address, and the [`Flaw`].
///
/// It prints as a sentence for people. [`Refusal::line`] is the same for programs.
///
/// ```
/// use grain::{verify, Caps, Chunk, Flaw, Pools, VerifyError};
///
/// // Pop, with nothing on the stack.
/// let chunks = [Chunk::new(0, 2, 1)];
/// let error = verify(Caps::NONE, &[0x0b, 0x13], &chunks, &Pools::new()).unwrap_err();
/// let VerifyError::Refused(refusal) = error else { panic!("{error}") };
/// assert_eq!((refusal.chunk(), refusal.address()), (Some(0), Some(0)));
/// assert_eq!(refusal.flaw(), Flaw::Underflow { need: 1, have: 0 });
/// assert_eq!(refusal.to_string(), "chunk 0: the instruction at 0 needs 1 operand, and there are 0");
/// assert_eq!(refusal.line(), "underflow at=0 need=1 have=0");
/// ```
#[derive(Clone, Copy, PartialEq, Eq, Hash)]
pub struct Refusal {
    record: raw::Refusal,
    visited: u64,
}

/// What is wrong. The instruction that it speaks of is the one at [`Refusal::address`].
#[derive(Clone, Copy, Debug, PartialEq, Eq, Hash)]
#[non_exhaustive]
pub enum Flaw {
    /// The host lacks capabilities that the instruction, a constant or the functions need.
    MissingCaps {
        /// The capabilities that the host lacks; for a constant all that it needs.
        missing: Caps,
        /// Those of the host.
        host: Caps,
    },
    /// There is no instruction at the address.
    Undecodable,
    /// Code goes on after its last instruction. No call returns this.
    TrailingBytes {
        /// How many bytes the code has.
        len: u32,
    },
    /// The chunk runs backwards or past the code. The address is its entry.
    ChunkOutOfRange {
        /// Where the chunk begins.
        entry: u32,
        /// Where it ends.
        end: u32,
        /// How many bytes the code has.
        len: u32,
    },
    /// A target of the instruction is outside the chunk.
    JumpOutOfRange {
        /// The target.
        target: u32,
    },
    /// A target of the instruction is inside an instruction; or the chunk begins or ends inside one, and the address is its
    /// entry.
    JumpIntoAnInstruction {
        /// The target; or where the chunk begins or ends.
        target: u32,
    },
    /// Two paths meet at the instruction with different counts of operands or iterators, or different handlers.
    DepthConflict {
        /// The operands on the first path.
        expected: u32,
        /// The operands on the other.
        found: u32,
    },
    /// The instruction needs more operands than there are.
    Underflow {
        /// How many it needs.
        need: u32,
        /// How many there are.
        have: u32,
    },
    /// A path runs past the end of its chunk, or the chunk is empty.
    FallsOffTheEnd,
    /// The chunk needs more operands than it declares.
    StackExceedsDeclared {
        /// How many it needs.
        needed: u32,
        /// How many it declares.
        declared: u32,
    },
    /// The instruction needs an iterator, and there is none.
    IteratorUnderflow,
    /// The instruction needs a handler, and none is armed.
    HandlerUnderflow,
    /// The instruction leaves fewer operands than there were when the last handler was armed; or, if there are enough of
    /// these, fewer iterators.
    SinksBelowHandler {
        /// How many there were when the handler was armed.
        need: u32,
        /// How many are left.
        have: u32,
    },
    /// An index of the instruction is out of bounds.
    BadIndex {
        /// What it names.
        what: Kind,
        /// The index.
        index: u32,
    },
    /// A program file declares capabilities that the host lacks ([`ProgramFile::caps`](crate::ProgramFile::caps)). Those
    /// without a name are left out here; [`Refusal::line`] has them.
    DeclaredCaps {
        /// The capabilities that the host lacks.
        missing: Caps,
        /// Those of the host.
        host: Caps,
    },
    /// A number that this package doesn't know.
    Unknown(
        /// Its number in `grain.h`.
        u32,
    ),
}

/// A number of the library's that fits: code has no more bytes than 32 bits can say.
fn small(number: u64) -> u32 {
    u32::try_from(number).unwrap_or(u32::MAX)
}

impl Refusal {
    pub(crate) fn new(record: raw::Refusal, visited: u64) -> Refusal {
        Refusal { record, visited }
    }

    /// The refusal of a program file that declares these capabilities, by number, if the host lacks some of them.
    pub(crate) fn of_declared_caps(declared: u16, host: Caps) -> Option<Refusal> {
        let missing = declared & !host.bits();
        let record = raw::Refusal {
            flaw: raw::DECLARED_CAPS,
            chunk: raw::WHOLE_PROGRAM,
            at: 0,
            first: u64::from(missing),
            second: u64::from(host.bits()),
        };
        (missing != 0).then_some(Refusal { record, visited: 0 })
    }

    /// The same of the chunk with this index.
    pub(crate) fn of_chunk(mut self, chunk: usize) -> Refusal {
        self.record.chunk = chunk as u64;
        self
    }

    /// The index of the chunk that is refused.
    ///
    /// It is `None` if the program is refused as a whole: for a constant, for the functions, or for its code with the
    /// indices in it, reached or not.
    #[must_use]
    pub fn chunk(&self) -> Option<usize> {
        if self.record.chunk == raw::WHOLE_PROGRAM {
            return None;
        }
        usize::try_from(self.record.chunk).ok()
    }

    /// The address of the instruction that is refused, or of the byte at which there is none. If the chunk isn't in the code, or
    /// begins or ends inside an instruction, it is the chunk's entry.
    ///
    /// It is `None` for a constant and the functions, for [`Flaw::FallsOffTheEnd`] and [`Flaw::StackExceedsDeclared`].
    #[must_use]
    pub fn address(&self) -> Option<u32> {
        match self.flaw() {
            Flaw::MissingCaps { .. } if self.chunk().is_none() => None,
            Flaw::FallsOffTheEnd
            | Flaw::StackExceedsDeclared { .. }
            | Flaw::DeclaredCaps { .. }
            | Flaw::Unknown(_) => None,
            _ => Some(small(self.record.at)),
        }
    }

    /// What is wrong.
    #[must_use]
    pub fn flaw(&self) -> Flaw {
        let raw::Refusal {
            flaw,
            at,
            first,
            second,
            ..
        } = self.record;
        let (caps, whole) = ((first as u16, second as u16), second);
        let (at, first, second) = (small(at), small(first), small(second));
        match flaw {
            1 => Flaw::MissingCaps {
                missing: Caps::from_bits_truncate(caps.0),
                host: Caps::from_bits_truncate(caps.1),
            },
            2 => Flaw::Undecodable,
            3 => Flaw::TrailingBytes { len: first },
            4 => Flaw::ChunkOutOfRange {
                entry: at,
                end: first,
                len: second,
            },
            5 => Flaw::JumpOutOfRange { target: first },
            6 => Flaw::JumpIntoAnInstruction { target: first },
            7 => Flaw::DepthConflict {
                expected: first,
                found: second,
            },
            8 => Flaw::Underflow {
                need: first,
                have: second,
            },
            9 => Flaw::FallsOffTheEnd,
            10 => Flaw::StackExceedsDeclared {
                needed: first,
                declared: second,
            },
            11 => Flaw::IteratorUnderflow,
            12 => Flaw::HandlerUnderflow,
            13 => Flaw::SinksBelowHandler {
                need: first,
                have: second,
            },
            14 => Flaw::BadIndex {
                what: Kind::of(small(whole)),
                index: first,
            },
            raw::DECLARED_CAPS => Flaw::DeclaredCaps {
                missing: Caps::from_bits_truncate(caps.0),
                host: Caps::from_bits_truncate(caps.1),
            },
            flaw => Flaw::Unknown(flaw),
        }
    }

    /// How many instructions the walks visited until the refusal, summed over the chunks; in an
    /// [explanation](crate::Explained), those of the explained chunk.
    #[must_use]
    pub fn visited(&self) -> u64 {
        self.visited
    }

    /// The refusal as the line program prints it, such as `underflow at=4 need=1 have=0`: a stable text for programs.
    #[must_use]
    pub fn line(&self) -> Text {
        // SAFETY: the record lives for the call, and the room is as large as is said.
        Text::written_by(|room, size| unsafe { raw::grain_refusal_text(&self.record, room, size) })
    }

    /// The index of the constant that is refused: the first that needs what the host lacks. It is `None` if something else
    /// is refused.
    ///
    /// The library says what the constant needs, and not which one it is. So it is searched for in the pools, which must be
    /// those that were verified.
    #[must_use]
    pub fn constant<'a>(&self, pools: impl Into<FlatPools<'a>>) -> Option<usize> {
        places::constant(self, &pools.into())
    }

    /// The chain that is refused, and which part of it: one with an index out of bounds, or a step that needs what the host
    /// lacks. It is `None` if something else is refused.
    ///
    /// The library says which instruction names the chain, and not which part is wrong. So it is searched for in the code and
    /// the pools, which must be those that were verified.
    ///
    /// ```
    /// use grain::{verify, Caps, ChainPart, Chunk, Pools, Root, Step, Tail};
    ///
    /// let steps = [Step::Index { operand: 0 }, Step::Property { name: 0, getter: 7, setter: 0 }];
    /// let pools = Pools::new().name("x").chain(Root::Temporary, &steps, Tail::Read, 1);
    /// let code = [0x02, 0x02, 0x16, 0, 0, 0x13];
    /// let error = verify(Caps::ALL, &code, &[Chunk::new(0, 6, 2)], &pools).unwrap_err();
    /// let refusal = error.refusal().unwrap();
    /// assert_eq!(refusal.to_string(), "the instruction at 2 has index 7 of a name, which doesn't exist");
    /// let place = refusal.chain_place(&code, &pools).unwrap();
    /// assert_eq!((place.chain, place.part), (0, ChainPart::Step(1)));
    /// ```
    #[must_use]
    pub fn chain_place<'a>(
        &self,
        code: &[u8],
        pools: impl Into<FlatPools<'a>>,
    ) -> Option<ChainPlace> {
        places::chain_place(self, code, &pools.into())
    }

    /// Writes the sentence without its chunk.
    fn write_flaw(&self, text: &mut impl Write) -> fmt::Result {
        let at = self.address().unwrap_or_default();
        match self.flaw() {
            Flaw::MissingCaps { missing, host } => self.write_missing(text, missing - host),
            Flaw::Undecodable => write!(text, "there is no instruction at {at}"),
            Flaw::TrailingBytes { len } => {
                write!(text, "the code of {len} bytes goes on after its last instruction, at {at}")
            }
            Flaw::ChunkOutOfRange { entry, end, len } => write!(
                text,
                "the chunk from {entry} to {end} isn't in the code, which has {len} bytes"
            ),
            Flaw::JumpOutOfRange { target } => write!(
                text,
                "the instruction at {at} has the target {target}, which is outside the chunk"
            ),
            Flaw::JumpIntoAnInstruction { target } if target == at => {
                write!(text, "the chunk begins at {at}, inside an instruction")
            }
            Flaw::JumpIntoAnInstruction { target } => write!(
                text,
                "the target of the instruction at {at}, or the end of the chunk that begins there, is {target}, inside an instruction"
            ),
            Flaw::DepthConflict { expected, found } if expected == found => write!(
                text,
                "two paths meet at {at} with {found} operand{} each, but with other iterators or handlers",
                plural(found)
            ),
            Flaw::DepthConflict { expected, found } => write!(
                text,
                "two paths meet at {at}, one with {expected} operand{}, the other with {found}",
                plural(expected)
            ),
            Flaw::Underflow { need, have } => write!(
                text,
                "the instruction at {at} needs {need} operand{}, and there are {have}",
                plural(need)
            ),
            Flaw::FallsOffTheEnd => {
                text.write_str("a path runs past the end of the chunk, or the chunk is empty")
            }
            Flaw::StackExceedsDeclared { needed, declared } => write!(
                text,
                "{needed} operand{} needed, and {declared} declared",
                if needed == 1 { " is" } else { "s are" }
            ),
            Flaw::IteratorUnderflow => {
                write!(text, "the instruction at {at} needs an iterator, and there is none")
            }
            Flaw::HandlerUnderflow => {
                write!(text, "the instruction at {at} needs a handler, and none is armed")
            }
            Flaw::SinksBelowHandler { need, have } => write!(
                text,
                "the instruction at {at} leaves {have} of the {need} operands or iterators that there were when the handler was armed"
            ),
            Flaw::BadIndex { what, index } => write!(
                text,
                "the instruction at {at} has index {index} of {} {what}, which doesn't exist",
                article(what)
            ),
            Flaw::DeclaredCaps { missing, .. } => self.write_declared(text, missing),
            Flaw::Unknown(flaw) => {
                write!(text, "the library names flaw {flaw}, which this package doesn't know")
            }
        }
    }

    /// As in "the program declares EXPORT and IMPORT, which the host doesn't have".
    fn write_declared(&self, text: &mut impl Write, missing: Caps) -> fmt::Result {
        let unknown = self.record.first as u16 & !Caps::ALL.bits();
        let mut left = missing.iter().count() + usize::from(unknown != 0);
        text.write_str("the program declares ")?;
        for cap in missing.iter() {
            left -= 1;
            let between = ["", " and ", ", "][left.min(2)];
            write!(text, "{cap}{between}")?;
        }
        if unknown != 0 {
            write!(text, "the unknown capabilities {unknown:04x}")?;
        }
        text.write_str(", which the host doesn't have")
    }

    fn write_missing(&self, text: &mut impl Write, lacking: Caps) -> fmt::Result {
        match self.address() {
            Some(at) => write!(
                text,
                "the instruction at {at} needs {lacking}, which the host doesn't have"
            ),
            None if lacking == Caps::FUNCTION => write!(
                text,
                "a function or a constant needs {lacking}, which the host doesn't have"
            ),
            None => write!(
                text,
                "a constant needs {lacking}, which the host doesn't have"
            ),
        }
    }
}

fn plural(count: u32) -> &'static str {
    if count == 1 {
        ""
    } else {
        "s"
    }
}

fn article(kind: Kind) -> &'static str {
    match kind {
        Kind::Operator | Kind::OpAssignment | Kind::Operand => "an",
        _ => "a",
    }
}

impl fmt::Display for Refusal {
    fn fmt(&self, f: &mut fmt::Formatter<'_>) -> fmt::Result {
        // The longest names all capabilities, which takes 140 bytes of them.
        let mut text = Buffer::<320>::new();
        if let Some(chunk) = self.chunk() {
            write!(text, "chunk {chunk}: ")?;
        }
        self.write_flaw(&mut text)?;
        f.pad(&text)
    }
}

impl fmt::Debug for Refusal {
    fn fmt(&self, f: &mut fmt::Formatter<'_>) -> fmt::Result {
        f.debug_struct("Refusal")
            .field("chunk", &self.chunk())
            .field("address", &self.address())
            .field("flaw", &self.flaw())
            .field("visited", &self.visited)
            .finish()
    }
}

impl std::error::Error for Refusal {}

#[cfg(test)]
mod tests {
    use super::*;

    /// The sentence of a refusal of chunk 7, at address 3.
    fn sentence(flaw: u32, first: u64, second: u64) -> String {
        let record = raw::Refusal {
            flaw,
            chunk: 7,
            at: 3,
            first,
            second,
        };
        let text = Refusal::new(record, 0).to_string();
        text.strip_prefix("chunk 7: ").unwrap().to_string()
    }

    #[test]
    fn each_flaw_has_a_sentence() {
        for (flaw, first, second, wanted) in [
            (1, 0x200, 0x7dff, "the instruction at 3 needs PROPERTY, which the host doesn't have"),
            (2, 0, 0, "there is no instruction at 3"),
            (3, 9, 0, "the code of 9 bytes goes on after its last instruction, at 3"),
            (4, 9, 5, "the chunk from 3 to 9 isn't in the code, which has 5 bytes"),
            (5, 9, 0, "the instruction at 3 has the target 9, which is outside the chunk"),
            (6, 3, 0, "the chunk begins at 3, inside an instruction"),
            (6, 4, 0, "the target of the instruction at 3, or the end of the chunk that begins there, is 4, inside an instruction"),
            (7, 1, 0, "two paths meet at 3, one with 1 operand, the other with 0"),
            (7, 2, 2, "two paths meet at 3 with 2 operands each, but with other iterators or handlers"),
            (8, 2, 1, "the instruction at 3 needs 2 operands, and there are 1"),
            (9, 0, 0, "a path runs past the end of the chunk, or the chunk is empty"),
            (10, 3, 2, "3 operands are needed, and 2 declared"),
            (11, 0, 0, "the instruction at 3 needs an iterator, and there is none"),
            (12, 0, 0, "the instruction at 3 needs a handler, and none is armed"),
            (13, 2, 1, "the instruction at 3 leaves 1 of the 2 operands or iterators that there were when the handler was armed"),
            (14, 9, 4, "the instruction at 3 has index 9 of an op-assignment, which doesn't exist"),
            (15, 0x2000, 0, "the program declares IMPORT, which the host doesn't have"),
            (15, 0x3000, 0, "the program declares EXPORT and IMPORT, which the host doesn't have"),
            (15, 0x8000, 0, "the program declares the unknown capabilities 8000, which the host doesn't have"),
            (15, 0xb002, 0, "the program declares ARRAY, EXPORT, IMPORT and the unknown capabilities 8000, which the host doesn't have"),
            (99, 0, 0, "the library names flaw 99, which this package doesn't know"),
        ] {
            assert_eq!(sentence(flaw, first, second), wanted);
        }
    }

    #[test]
    fn the_longest_sentence_is_whole() {
        let record = raw::Refusal {
            flaw: 1,
            chunk: u64::MAX - 1,
            at: u64::MAX,
            first: u64::MAX,
            second: 0,
        };
        let text = Refusal::new(record, 0).to_string();
        assert!(
            text.ends_with("CUSTOM_SYNTAX, which the host doesn't have"),
            "{text}"
        );
        let long = Refusal::new(
            raw::Refusal {
                flaw: 13,
                first: u64::MAX,
                ..record
            },
            0,
        );
        assert!(long.to_string().ends_with("was armed"));
        let declared = Refusal::of_declared_caps(u16::MAX, Caps::NONE).unwrap();
        assert!(declared
            .to_string()
            .ends_with("8000, which the host doesn't have"));
    }

    #[test]
    fn numbers_that_are_too_large_stop_at_the_greatest() {
        let record = raw::Refusal {
            flaw: 5,
            chunk: 0,
            at: 1 << 40,
            first: 1 << 33,
            second: 0,
        };
        let refusal = Refusal::new(record, 0);
        assert_eq!(refusal.address(), Some(u32::MAX));
        assert_eq!(refusal.flaw(), Flaw::JumpOutOfRange { target: u32::MAX });
    }
}
