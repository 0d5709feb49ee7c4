//! Pools in their flat form: lists of the caller's.
use crate::pools::Pools;
use crate::raw;
use crate::rows::{Case, ChainRow, Constant, StepRow, SwitchRow};
use crate::text::Buffer;
use crate::Chunk;
use std::fmt::{self, Write};

/// Pools in their flat form: lists of the caller's, which are borrowed and not copied. Whoever has such lists needs no
/// [`Pools`].
///
/// One list has the steps of all chains, chain after chain, and two have the cases and the ranges of all switches; the numbers
/// in the rows must add up to them. If they don't, or the names aren't cut as [`names`](FlatPools::names) says, no pools have
/// this form: the result is [`VerifyError::NotFlat`](crate::VerifyError::NotFlat), and [`check`](FlatPools::check) says the same.
///
/// ```
/// use grain::{verify, Caps, Case, ChainRow, Chunk, FlatPools, Root, Step, StepRow, SwitchRow, Tail};
///
/// let steps = [StepRow::from(Step::Property { name: 1, getter: 0, setter: 0 })];
/// let chains = [ChainRow::new(Root::Temporary, 1, Tail::Read, 0)];
/// let pools = FlatPools::new().names(b"lenage", &[0, 3, 6]).chains(&chains, &steps);
/// let code = [0x02, 0x16, 0, 0, 0x13];
/// assert_eq!(verify(Caps::ALL, &code, &[Chunk::new(0, 5, 1)], pools), Ok(vec![1]));
///
/// let flaw = pools.chains(&chains, &[]).check().unwrap_err();
/// assert_eq!(flaw.to_string(), "the list of chains isn't flat at index 0");
/// ```
#[derive(Clone, Copy, Debug)]
pub struct FlatPools<'a> {
    constants: &'a [Constant],
    names: &'a [u8],
    starts: &'a [u32],
    operators: usize,
    op_assignments: usize,
    fragments: usize,
    functions: usize,
    chains: &'a [ChainRow],
    steps: &'a [StepRow],
    switches: &'a [SwitchRow],
    cases: &'a [Case],
    ranges: &'a [u32],
    pub(crate) is_built: bool,
}

impl<'a> FlatPools<'a> {
    /// Pools with nothing in them.
    #[must_use]
    pub const fn new() -> FlatPools<'a> {
        FlatPools {
            constants: &[],
            names: &[],
            starts: &[0],
            operators: 0,
            op_assignments: 0,
            fragments: 0,
            functions: 0,
            chains: &[],
            steps: &[],
            switches: &[],
            cases: &[],
            ranges: &[],
            is_built: false,
        }
    }

    /// Whether each list by whose length verification takes memory has at most this number of items: a switch that is reached takes
    /// some for each of its cases and ranges.
    pub(crate) const fn are_within(&self, most: usize) -> bool {
        self.starts.len() <= most
            && self.chains.len() <= most
            && self.switches.len() <= most
            && self.cases.len() <= most
            && self.ranges.len() <= most
    }

    /// Tests that some pools have this flat form.
    ///
    /// # Errors
    /// Which list is wrong, and where.
    pub fn check(&self) -> Result<(), PoolsFlaw> {
        let mut flaw = raw::PoolsFlaw::default();
        // SAFETY: the record points to lists that `self` borrows, and both records live for the call.
        let is_flat = unsafe { raw::grain_check_pools(&self.raw(), &mut flaw) };
        if is_flat {
            Ok(())
        } else {
            Err(PoolsFlaw::of(flaw))
        }
    }

    /// With these constants.
    #[must_use]
    pub const fn constants(mut self, constants: &'a [Constant]) -> FlatPools<'a> {
        self.constants = constants;
        self
    }

    /// With these names: the bytes of all of them one after another, which are UTF-8, and one start more than there are
    /// names: 0, and then where each name ends.
    #[must_use]
    pub const fn names(mut self, names: &'a [u8], starts: &'a [u32]) -> FlatPools<'a> {
        self.names = names;
        self.starts = starts;
        self
    }

    /// With this many operators.
    #[must_use]
    pub const fn operators(mut self, operators: usize) -> FlatPools<'a> {
        self.operators = operators;
        self
    }

    /// With this many op-assignments.
    #[must_use]
    pub const fn op_assignments(mut self, op_assignments: usize) -> FlatPools<'a> {
        self.op_assignments = op_assignments;
        self
    }

    /// With this many fragments of syntax.
    #[must_use]
    pub const fn fragments(mut self, fragments: usize) -> FlatPools<'a> {
        self.fragments = fragments;
        self
    }

    /// With this many functions.
    #[must_use]
    pub const fn functions(mut self, functions: usize) -> FlatPools<'a> {
        self.functions = functions;
        self
    }

    /// With these chains, and the steps of all of them.
    #[must_use]
    pub const fn chains(mut self, chains: &'a [ChainRow], steps: &'a [StepRow]) -> FlatPools<'a> {
        self.chains = chains;
        self.steps = steps;
        self
    }

    /// With these switches, and the cases and the ranges of all of them. A range is its target.
    #[must_use]
    pub const fn switches(
        mut self,
        switches: &'a [SwitchRow],
        cases: &'a [Case],
        ranges: &'a [u32],
    ) -> FlatPools<'a> {
        self.switches = switches;
        self.cases = cases;
        self.ranges = ranges;
        self
    }

    pub(crate) const fn of_builder(mut self) -> FlatPools<'a> {
        self.is_built = true;
        self
    }

    pub(crate) fn raw(&self) -> raw::Pools {
        raw::Pools {
            constants: self.constants.as_ptr(),
            constants_len: self.constants.len(),
            names: self.names.as_ptr(),
            names_len: self.names.len(),
            starts: self.starts.as_ptr(),
            starts_len: self.starts.len(),
            operators: self.operators,
            op_assignments: self.op_assignments,
            fragments: self.fragments,
            functions: self.functions,
            chains: self.chains.as_ptr(),
            chains_len: self.chains.len(),
            steps: self.steps.as_ptr(),
            steps_len: self.steps.len(),
            switches: self.switches.as_ptr(),
            switches_len: self.switches.len(),
            cases: self.cases.as_ptr(),
            cases_len: self.cases.len(),
            ranges: self.ranges.as_ptr(),
            ranges_len: self.ranges.len(),
        }
    }

    /// The record of a program with these pools. It points to lists that the caller and `self` borrow.
    pub(crate) fn program(&self, code: &[u8], chunks: &[Chunk]) -> raw::Program {
        raw::Program {
            code: code.as_ptr(),
            code_len: code.len(),
            chunks: chunks.as_ptr(),
            chunks_len: chunks.len(),
            pools: self.raw(),
        }
    }

    pub(crate) fn constant_rows(&self) -> &'a [Constant] {
        self.constants
    }

    /// How many names there are.
    pub(crate) fn count_names(&self) -> usize {
        self.starts.len().saturating_sub(1)
    }

    /// The bytes of the name at an index, if there is one.
    pub(crate) fn name(&self, index: u32) -> Option<&'a [u8]> {
        let index = index as usize;
        let (from, to) = (*self.starts.get(index)?, *self.starts.get(index + 1)?);
        self.names.get(from as usize..to as usize)
    }

    /// The chain at an index, and its steps.
    pub(crate) fn chain(&self, index: usize) -> Option<(ChainRow, &'a [StepRow])> {
        self.all_chains().nth(index)
    }

    /// All chains, each with its steps, as far as there are steps.
    pub(crate) fn all_chains(&self) -> impl Iterator<Item = (ChainRow, &'a [StepRow])> {
        let mut rest = self.steps;
        self.chains.iter().map_while(move |chain| {
            let many = chain.steps() as usize;
            let own = rest.get(..many)?;
            rest = &rest[many..];
            Some((*chain, own))
        })
    }
}

/// A list of [`FlatPools`].
#[derive(Clone, Copy, Debug, PartialEq, Eq, Hash)]
#[non_exhaustive]
pub enum PoolsList {
    /// The constants.
    Constants,
    /// The names with their starts. An index is that of a name.
    Names,
    /// The chains.
    Chains,
    /// The steps of all chains.
    Steps,
    /// The switches.
    Switches,
    /// The cases of all switches.
    Cases,
    /// The ranges of all switches.
    Ranges,
    /// A number that this package doesn't know.
    Unknown(
        /// Its number in `grain.h`.
        u32,
    ),
}

/// Where pools aren't flat.
#[derive(Clone, Copy, Debug, PartialEq, Eq, Hash)]
pub struct PoolsFlaw {
    /// The list that is wrong.
    pub list: PoolsList,
    /// The index of the first entry that is wrong, or the length of the list if entries are missing.
    pub index: u64,
}

impl PoolsFlaw {
    pub(crate) fn of(flaw: raw::PoolsFlaw) -> PoolsFlaw {
        let list = match flaw.list {
            1 => PoolsList::Constants,
            2 => PoolsList::Names,
            3 => PoolsList::Chains,
            4 => PoolsList::Steps,
            5 => PoolsList::Switches,
            6 => PoolsList::Cases,
            7 => PoolsList::Ranges,
            unknown => PoolsList::Unknown(unknown),
        };
        PoolsFlaw {
            list,
            index: flaw.index,
        }
    }
}

impl fmt::Display for PoolsFlaw {
    fn fmt(&self, f: &mut fmt::Formatter<'_>) -> fmt::Result {
        let list = match self.list {
            PoolsList::Constants => "the list of constants",
            PoolsList::Names => "the list of names",
            PoolsList::Chains => "the list of chains",
            PoolsList::Steps => "the list of steps",
            PoolsList::Switches => "the list of switches",
            PoolsList::Cases => "the list of cases",
            PoolsList::Ranges => "the list of ranges",
            PoolsList::Unknown(_) => "a list that is unknown here",
        };
        let mut text = Buffer::<80>::new();
        write!(text, "{list} isn't flat at index {}", self.index)?;
        f.pad(&text)
    }
}

impl std::error::Error for PoolsFlaw {}

impl Default for FlatPools<'_> {
    fn default() -> Self {
        FlatPools::new()
    }
}

impl<'a> From<&FlatPools<'a>> for FlatPools<'a> {
    fn from(pools: &FlatPools<'a>) -> FlatPools<'a> {
        *pools
    }
}

impl<'a> From<&'a Pools> for FlatPools<'a> {
    fn from(pools: &'a Pools) -> FlatPools<'a> {
        pools.flat()
    }
}

impl<'a> From<&'a mut Pools> for FlatPools<'a> {
    fn from(pools: &'a mut Pools) -> FlatPools<'a> {
        pools.flat()
    }
}
