//! Why bytes aren't a program file.
use crate::numbered::numbered;
use crate::raw;
use crate::text::Text;
use std::error::Error;
use std::fmt;

numbered! {
    /// What is wrong with the bytes of a file.
    FileFault,
    /// They don't begin as a file does.
    Magic = 2,
    /// The file is of a version that the library doesn't know.
    Version = 3,
    /// The file is of another kind.
    Kind = 4,
    /// They end within a field.
    Truncated = 5,
    /// A number doesn't fit.
    TooWide = 6,
    /// A number has a shorter spelling.
    NotShortest = 7,
    /// A text isn't UTF-8.
    NotText = 8,
    /// A number isn't a character.
    NotCharacter = 9,
    /// A byte isn't a tag.
    UnknownTag = 10,
    /// A key doesn't come after the one before it.
    KeyOrder = 11,
    /// Values are nested deeper than the limit.
    TooDeep = 12,
    /// The names have more than 4294967295 bytes.
    NamesTooLong = 13,
    /// The constants of the cases of a switch don't strictly ascend.
    CaseOrder = 14,
    /// A switch has a case whose constant isn't there.
    NoConstant = 15,
    /// A switch has more cases than the limit.
    TooManyCases = 16,
    /// Two cases of a switch are of the same value.
    SameCase = 17,
    /// A position has line 0.
    NoLine = 18,
    /// Bytes follow the last field.
    Trailing = 19,
}

numbered! {
    /// A part of a program file. Of a list it is how many items there are; each item is a part of its own.
    FilePart,
    /// The magic, the version and the kind.
    Header = 0,
    /// The capabilities.
    Capabilities = 1,
    /// The number of the program.
    Id = 2,
    /// The code.
    Code = 3,
    /// The main chunk.
    MainChunk = 4,
    /// The functions.
    Functions = 5,
    /// A function.
    Function = 6,
    /// The names.
    Names = 7,
    /// A name.
    Name = 8,
    /// The constants.
    Constants = 9,
    /// A constant.
    Constant = 10,
    /// The operators.
    Operators = 11,
    /// An operator.
    Operator = 12,
    /// The op-assignments.
    OpAssignments = 13,
    /// An op-assignment.
    OpAssignment = 14,
    /// The chains.
    Chains = 15,
    /// A chain.
    Chain = 16,
    /// The switches.
    Switches = 17,
    /// A switch.
    Switch = 18,
    /// The name of the source.
    SourceName = 19,
    /// The positions.
    Positions = 20,
    /// A position.
    Position = 21,
    /// What follows the last part.
    Rest = 24,
}

/// Why bytes aren't a file: the first wrong byte, the part that it is in, and what is wrong there.
#[derive(Clone, Copy, PartialEq, Eq, Hash)]
pub struct Malformed {
    record: raw::ReadError,
}

impl Malformed {
    /// The position of the byte in the file, from 0.
    #[must_use]
    pub fn at(&self) -> u64 {
        self.record.at
    }

    /// The part that the byte is in.
    #[must_use]
    pub fn part(&self) -> FilePart {
        FilePart::of_number(self.record.part)
    }

    /// The index of the part if it is an item of a list, else 0.
    #[must_use]
    pub fn index(&self) -> u64 {
        self.record.index
    }

    /// What is wrong.
    #[must_use]
    pub fn fault(&self) -> FileFault {
        FileFault::of_number(self.record.cause)
    }
}

impl fmt::Debug for Malformed {
    fn fmt(&self, f: &mut fmt::Formatter<'_>) -> fmt::Result {
        f.debug_struct("Malformed")
            .field("at", &self.at())
            .field("part", &self.part())
            .field("index", &self.index())
            .field("fault", &self.fault())
            .finish()
    }
}

/// As in "byte 7, in name 3: text is not UTF-8".
impl fmt::Display for Malformed {
    fn fmt(&self, f: &mut fmt::Formatter<'_>) -> fmt::Result {
        // SAFETY: the record lives for the call, and the room has the size that the library is given.
        let text = Text::written_by(|room, size| unsafe {
            raw::grain_read_error_text(&self.record, room, size)
        });
        f.pad(&text)
    }
}

/// Why a file isn't read.
#[derive(Clone, Copy, Debug, PartialEq, Eq, Hash)]
#[non_exhaustive]
pub enum FileError {
    /// The bytes aren't a file within the limits.
    Malformed(Malformed),
    /// The file has more bytes than the limit.
    TooLarge {
        /// How many it has.
        size: u64,
        /// How many it may have.
        limit: u64,
    },
    /// A list of it has 4294967296 entries or more, or a text or a blob as many bytes.
    TooLong,
    /// A limit is above its greatest value: [`Limits::depth`](crate::Limits::depth) above
    /// [`Limits::MAX_DEPTH`](crate::Limits::MAX_DEPTH).
    BadLimit,
    /// The sidecar wouldn't give the file back ([`ProgramFile::strip`](crate::ProgramFile::strip)): a position belongs to an
    /// address at which no instruction begins, or the list of positions isn't as long as the code, or has no position at all.
    NotRestorable,
    /// The allocator refused.
    OutOfMemory,
    /// The library returned a status that this package doesn't know.
    Unknown(
        /// The status.
        u32,
    ),
}

impl FileError {
    pub(crate) fn of(status: u32, record: raw::ReadError) -> FileError {
        match status {
            raw::MALFORMED if record.cause == raw::CAUSE_TOO_LARGE => FileError::TooLarge {
                size: record.at,
                limit: record.limit,
            },
            raw::MALFORMED => FileError::Malformed(Malformed { record }),
            raw::TOO_LONG => FileError::TooLong,
            raw::BAD_LIMIT => FileError::BadLimit,
            raw::NOT_RESTORABLE => FileError::NotRestorable,
            raw::OUT_OF_MEMORY => FileError::OutOfMemory,
            status => FileError::Unknown(status),
        }
    }
}

impl fmt::Display for FileError {
    fn fmt(&self, f: &mut fmt::Formatter<'_>) -> fmt::Result {
        match self {
            FileError::Malformed(malformed) => malformed.fmt(f),
            FileError::TooLarge { size, limit } => {
                write!(f, "file of {size} bytes, limit {limit}")
            }
            FileError::TooLong => f.write_str("a list, a text or a blob of the file is too long"),
            FileError::BadLimit => f.write_str("a limit is above its greatest value"),
            FileError::NotRestorable => f.write_str("a sidecar wouldn't give the file back"),
            FileError::OutOfMemory => f.write_str("out of memory"),
            FileError::Unknown(status) => write!(f, "unknown status {status}"),
        }
    }
}

impl Error for FileError {}
