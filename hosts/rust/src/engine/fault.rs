//! Faults of scripts.
use super::values::Value;
use crate::numbered::numbered;
use crate::raw;
use std::fmt;

numbered! {
    /// Of which kind a fault is. No script catches the last three.
    FaultKind,
    /// The script threw a value: [`Fault::thrown`].
    Thrown = 1,
    /// No variable has the name.
    NoVariable = 2,
    /// No function has the name and takes such arguments.
    NoFunction = 3,
    /// A value has no such property.
    NoProperty = 4,
    /// A value is of another type.
    WrongType = 5,
    /// A result doesn't fit 64 bits.
    Overflow = 6,
    /// A divisor is zero.
    DivisionByZero = 7,
    /// No item has the index.
    OutOfBounds = 8,
    /// `this` is used in a function that wasn't called on a value.
    NoThis = 9,
    /// The engine doesn't do the operation.
    Unsupported = 10,
    /// The bound on calls was reached.
    TooDeep = 11,
    /// A value isn't within the bounds.
    TooLarge = 12,
    /// A function of the host failed, or too much was printed.
    Host = 13,
}

/// Why and where a run failed. [`Display`](fmt::Display) writes the cause with its line, and the calls that the fault ended, a line
/// each.
///
/// ```
/// use grain::engine::{Engine, FaultKind, RunError};
///
/// let engine = Engine::new();
/// let Err(RunError::Fault(fault)) = engine.state(&engine.compile("let x = 1;\nthrow x + 1")?)?.run::<()>() else {
///     panic!()
/// };
/// assert_eq!((fault.kind(), fault.position()), (FaultKind::Thrown, Some((2, 1))));
/// assert_eq!(fault.thrown(), Some(&2.into()));
/// assert_eq!(fault.to_string(), "Runtime error: 2 (line 2, position 1)");
/// # Ok::<(), Box<dyn std::error::Error>>(())
/// ```
#[derive(Clone, Debug, PartialEq, Eq, Hash)]
pub struct Fault {
    kind: FaultKind,
    line: u32,
    column: u32,
    address: usize,
    thrown: Option<Value>,
    text: String,
}

impl Fault {
    pub(crate) fn of(failure: &raw::Failure, thrown: Option<Value>, text: String) -> Fault {
        Fault {
            kind: FaultKind::of_number(failure.kind),
            line: failure.line,
            column: failure.column,
            address: failure.at,
            thrown,
            text,
        }
    }

    /// Of which kind it is.
    #[must_use]
    pub fn kind(&self) -> FaultKind {
        self.kind
    }

    /// The line and the column, counted from 1, if the program has positions. A column of 0 means the line as a whole.
    #[must_use]
    pub fn position(&self) -> Option<(u32, u32)> {
        (self.line > 0).then_some((self.line, self.column))
    }

    /// The address of the operation in the program's code.
    #[must_use]
    pub fn address(&self) -> usize {
        self.address
    }

    /// The value that the script threw. There is none if closures share a part of it.
    #[must_use]
    pub fn thrown(&self) -> Option<&Value> {
        self.thrown.as_ref()
    }

    /// What [`Display`](fmt::Display) writes.
    #[must_use]
    pub fn text(&self) -> &str {
        &self.text
    }
}

impl fmt::Display for Fault {
    fn fmt(&self, f: &mut fmt::Formatter<'_>) -> fmt::Result {
        f.write_str(&self.text)
    }
}
