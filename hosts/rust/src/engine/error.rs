//! Why scripts aren't compiled, loaded or run.
use super::fault::Fault;
use super::values::Value;
use crate::{FileError, Refusal};
use std::error::Error;
use std::fmt;

/// Why a text isn't compiled.
#[derive(Clone, Debug, PartialEq, Eq)]
#[non_exhaustive]
pub enum CompileError {
    /// The text has an error: a report with the line, the column, and an excerpt with a caret.
    Script(String),
    /// The bound on nesting is above 256.
    BadLimit,
    /// The allocator refused.
    OutOfMemory,
}

impl fmt::Display for CompileError {
    fn fmt(&self, f: &mut fmt::Formatter<'_>) -> fmt::Result {
        match self {
            CompileError::Script(report) => f.write_str(report.trim_end()),
            CompileError::BadLimit => f.write_str("the bound on nesting is above 256"),
            CompileError::OutOfMemory => f.write_str("out of memory"),
        }
    }
}

impl Error for CompileError {}

/// Why a program file isn't loaded.
#[derive(Clone, Debug, PartialEq, Eq)]
#[non_exhaustive]
pub enum LoadError {
    /// The bytes aren't a program file within the limits.
    File(FileError),
    /// The program is refused.
    Refused(Refusal),
    /// Its chunks span more of the code than the limit on work allows.
    TooMuchWork,
    /// A constant is a value of another host.
    ForeignConstant,
    /// The allocator refused.
    OutOfMemory,
}

impl fmt::Display for LoadError {
    fn fmt(&self, f: &mut fmt::Formatter<'_>) -> fmt::Result {
        match self {
            LoadError::File(error) => error.fmt(f),
            LoadError::Refused(refusal) => refusal.fmt(f),
            LoadError::TooMuchWork => {
                f.write_str("the chunks span more code than the limit allows")
            }
            LoadError::ForeignConstant => f.write_str("a constant is a value of another host"),
            LoadError::OutOfMemory => f.write_str("out of memory"),
        }
    }
}

impl Error for LoadError {
    fn source(&self) -> Option<&(dyn Error + 'static)> {
        match self {
            LoadError::File(error) => Some(error),
            _ => None,
        }
    }
}

impl From<FileError> for LoadError {
    fn from(error: FileError) -> LoadError {
        LoadError::File(error)
    }
}

impl From<Refusal> for LoadError {
    fn from(refusal: Refusal) -> LoadError {
        LoadError::Refused(refusal)
    }
}

/// Why a run doesn't return a value.
#[derive(Clone, Debug, PartialEq, Eq, Hash)]
#[non_exhaustive]
pub enum RunError {
    /// It failed.
    Fault(Fault),
    /// All turns are used, or the interrupt was raised. [`State::resume`](super::State::resume) goes on; all other calls that begin
    /// a run are refused until then, or until [`State::stop`](super::State::stop).
    Paused,
    /// The script has no function, or no variable, of this name.
    NoName(String),
    /// Another run can go on, or as many runs wait as may. Of an answer: no run waits for it.
    NotNow,
    /// A function of the host that the run called ended all runs, by [`State::reset`](super::State::reset).
    Stopped,
    /// A value isn't within the bounds, or a value that the script shares among closures can't be shown.
    BadValue,
    /// The value isn't of the wanted type.
    Type(WrongType),
    /// An allocation was refused.
    OutOfMemory,
}

impl fmt::Display for RunError {
    fn fmt(&self, f: &mut fmt::Formatter<'_>) -> fmt::Result {
        match self {
            RunError::Fault(fault) => fault.fmt(f),
            RunError::Paused => f.write_str("out of turns"),
            RunError::NoName(name) => write!(f, "the script has no `{name}`"),
            RunError::NotNow => f.write_str("no run is at a point where this can be done"),
            RunError::Stopped => f.write_str("the run was ended by a function that it called"),
            RunError::BadValue => f.write_str("a value isn't within the bounds"),
            RunError::Type(error) => error.fmt(f),
            RunError::OutOfMemory => f.write_str("out of memory"),
        }
    }
}

impl Error for RunError {
    fn source(&self) -> Option<&(dyn Error + 'static)> {
        match self {
            RunError::Type(error) => Some(error),
            _ => None,
        }
    }
}

impl From<WrongType> for RunError {
    fn from(error: WrongType) -> RunError {
        RunError::Type(error)
    }
}

/// A value isn't of the Rust type that is wanted.
#[derive(Clone, Copy, Debug, PartialEq, Eq, Hash)]
pub struct WrongType {
    /// The type that is wanted, as scripts call it. If the value is an integer that the type doesn't have, it is that of Rust.
    pub wanted: &'static str,
    /// The type of the value.
    pub found: &'static str,
}

impl fmt::Display for WrongType {
    fn fmt(&self, f: &mut fmt::Formatter<'_>) -> fmt::Result {
        write!(f, "expected {}, found {}", self.wanted, self.found)
    }
}

impl Error for WrongType {}

/// Why a function of the host fails.
#[derive(Clone, Debug, PartialEq, Eq, Hash)]
#[non_exhaustive]
pub enum HostError {
    /// It throws a value, which the script may catch.
    Throw(Value),
    /// It fails, which no script catches.
    Fail(String),
}

/// The value as it is printed, or the text.
impl fmt::Display for HostError {
    fn fmt(&self, f: &mut fmt::Formatter<'_>) -> fmt::Result {
        match self {
            HostError::Throw(value) => value.fmt(f),
            HostError::Fail(text) => f.write_str(text),
        }
    }
}

impl Error for HostError {}

impl From<String> for HostError {
    fn from(text: String) -> HostError {
        HostError::Throw(text.into())
    }
}

impl From<&str> for HostError {
    fn from(text: &str) -> HostError {
        HostError::Throw(text.into())
    }
}

/// The script may catch that a value is of another type: it is thrown as a text.
impl From<WrongType> for HostError {
    fn from(error: WrongType) -> HostError {
        HostError::Throw(error.to_string().into())
    }
}

/// A function of the host that called the script passes its failure on: the script can't catch it.
impl From<RunError> for HostError {
    fn from(error: RunError) -> HostError {
        HostError::Fail(error.to_string())
    }
}
