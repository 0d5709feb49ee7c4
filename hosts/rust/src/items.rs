//! What a program file has lists of.
use crate::rows::{Case, ChainRow, Root, Step, StepRow, Tail};
use crate::values::Operator;
use crate::Chunk;
use std::iter::FusedIterator;

/// A function of a program file.
#[derive(Clone, Copy, Debug, PartialEq, Eq, Hash)]
pub struct FileFunction<'a> {
    /// The index of its name. Nothing tests it, nor those of parameters and of the type: each may be that of no name.
    pub name: u32,
    /// The indices of the names of its parameters.
    pub parameters: &'a [u32],
    /// Whether only its own script may call it.
    pub is_private: bool,
    /// The index of the name of the type of receiver that it is declared for, if it is.
    pub this_type: Option<u32>,
    /// Its chunk.
    pub chunk: Chunk,
}

/// A chain of a program file.
///
/// ```
/// use grain::{Root, Step, Tail};
///
/// # let bytes = b"\0grn\x02\0\0\0\0\x04\x16\0\0\x13\0\x04\x01\0\x01\x01x\0\0\0\x01\x03\x01\x01\0\0\0\x01\0\0\0\0\0\0";
/// let file = grain::ProgramFile::try_from(&bytes[..])?;
/// let chain = file.chains().next().unwrap();
/// assert_eq!((chain.root(), chain.tail(), chain.operands()), (Root::Temporary, Tail::Read, 0));
/// for each in chain.steps() {
///     assert_eq!(each.step, Step::Property { name: 0, getter: 0, setter: 0 });
///     assert!(each.is_optional); // a?.x
/// }
/// # Ok::<(), grain::FileError>(())
/// ```
#[derive(Clone, Copy, Debug)]
pub struct FileChain<'a> {
    pub(crate) row: &'a ChainRow,
    pub(crate) steps: FileSteps<'a>,
}

impl<'a> FileChain<'a> {
    /// Where it begins.
    #[inline]
    #[must_use]
    pub fn root(&self) -> Root {
        self.row.root()
    }

    /// Its steps, in order.
    #[inline]
    #[must_use]
    pub fn steps(&self) -> FileSteps<'a> {
        self.steps
    }

    /// What it does at its end.
    #[inline]
    #[must_use]
    pub fn tail(&self) -> Tail {
        self.row.tail()
    }

    /// How many operands its steps take.
    #[inline]
    #[must_use]
    pub fn operands(&self) -> u16 {
        self.row.operands()
    }
}

/// A step of a chain of a program file.
#[derive(Clone, Copy, Debug, PartialEq, Eq, Hash)]
pub struct FileStep {
    /// What it does.
    pub step: Step,
    /// Whether it ends the chain if it is applied to `()`: `?.` or `?[`.
    pub is_optional: bool,
}

/// The steps of a chain, in order, as [`FileChain::steps`] returns them.
#[derive(Clone, Copy, Debug)]
pub struct FileSteps<'a> {
    /// As many as there are flags.
    rows: &'a [StepRow],
    flags: &'a [u8],
}

impl<'a> FileSteps<'a> {
    pub(crate) fn new(rows: &'a [StepRow], flags: &'a [u8]) -> FileSteps<'a> {
        let len = rows.len().min(flags.len());
        FileSteps {
            rows: &rows[..len],
            flags: &flags[..len],
        }
    }
}

impl Iterator for FileSteps<'_> {
    type Item = FileStep;

    #[inline]
    fn next(&mut self) -> Option<FileStep> {
        let (row, rows) = self.rows.split_first()?;
        let (flags, more) = self.flags.split_first()?;
        (self.rows, self.flags) = (rows, more);
        Some(FileStep {
            step: Step::from(*row),
            is_optional: flags & IS_OPTIONAL != 0,
        })
    }

    #[inline]
    fn size_hint(&self) -> (usize, Option<usize>) {
        (self.rows.len(), Some(self.rows.len()))
    }
}

impl ExactSizeIterator for FileSteps<'_> {}
impl FusedIterator for FileSteps<'_> {}

/// The flag of a step that ends the chain early at `()`.
const IS_OPTIONAL: u8 = 1;

/// A range of a switch.
#[repr(C)]
#[derive(Clone, Copy, Debug, PartialEq, Eq, Hash)]
pub struct Range {
    /// The first integer.
    pub from: i64,
    /// The last integer if the range is inclusive, else the first one past it.
    pub to: i64,
    /// Whether the range has that last integer.
    pub is_inclusive: bool,
    /// The address to which it jumps.
    pub target: u32,
}

impl Range {
    /// Whether the range has an integer.
    #[inline]
    #[must_use]
    pub const fn contains(&self, subject: i64) -> bool {
        self.from <= subject && (subject < self.to || self.is_inclusive && subject == self.to)
    }
}

/// A switch of a program file. A subject that equals the constant of a case goes to that case. If there is no such case, the
/// first range that has the subject counts.
#[derive(Clone, Copy, Debug)]
pub struct FileSwitch<'a> {
    /// The cases, in no order.
    pub cases: &'a [Case],
    /// The ranges.
    pub ranges: &'a [Range],
    /// The address to which all other subjects go.
    pub otherwise: u32,
}

/// An op-assignment of a program file.
#[derive(Clone, Copy, Debug, PartialEq, Eq, Hash)]
pub struct OpAssignment<'a> {
    /// Its operator, as `+=`.
    pub op_assign: Operator<'a>,
    /// The index of the name of that.
    pub op_assign_name: u32,
    /// The operator that it applies, as `+`.
    pub op: Operator<'a>,
    /// The index of the name of that.
    pub op_name: u32,
}
