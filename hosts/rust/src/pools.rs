//! What a program has besides its code and its chunks, built up item by item.
use crate::flat::FlatPools;
use crate::rows::{Case, ChainRow, Constant, Root, Step, StepRow, SwitchRow, Tail};
use std::cell::Cell;
use std::collections::TryReserveError;
use std::fmt;
use std::hash::{Hash, Hasher};
use std::mem::size_of;

/// Why an item isn't added to pools. They stay as they were.
#[derive(Clone, Copy, Debug, PartialEq, Eq, Hash)]
#[non_exhaustive]
pub enum PoolError {
    /// The allocator refused.
    OutOfMemory,
    /// A count or a place doesn't fit the flat form, whose numbers have 32 bits.
    TooLarge,
}

impl fmt::Display for PoolError {
    fn fmt(&self, f: &mut fmt::Formatter<'_>) -> fmt::Result {
        f.pad(match self {
            PoolError::OutOfMemory => "out of memory",
            PoolError::TooLarge => "a list of the pools is too long",
        })
    }
}

impl std::error::Error for PoolError {}

impl From<TryReserveError> for PoolError {
    fn from(_: TryReserveError) -> PoolError {
        PoolError::OutOfMemory
    }
}

/// What a program has besides its code and its chunks, as far as verification reads it.
///
/// Items are added one by one, in the order of their indices. There are two ways to do it:
///
/// - Chained calls ([`constant`](Pools::constant), [`name`](Pools::name), [`chain`](Pools::chain), [`switch`](Pools::switch))
///   take memory as a `Vec` does: the process ends if the allocator refuses. So does a clone.
/// - Calls that begin with `add` or `extend` return the index of the item, or an error if the allocator refuses. A host that
///   reads programs of others uses these.
///
/// Cleared pools keep their memory for the next program. Small pools that are dropped leave it to the next pools of their thread.
///
/// ```
/// use grain::{verify, Caps, Chunk, Needs, Pools, Root, Step, Tail};
///
/// let mut pools = Pools::new();
/// for names in [&["len"][..], &["age", "name"]] {
///     pools.clear();
///     pools.extend_names(names)?;
///     pools.extend_constants([Needs::Unknown, Needs::Caps(Caps::ARRAY)])?;
///     let steps = (0..names.len() as u32).map(|name| Step::Property { name, getter: 0, setter: 0 });
///     assert_eq!(pools.add_chain(Root::Temporary, steps, Tail::Read, 0)?, 0);
///     let depths = verify(Caps::ALL, &[0x02, 0x16, 0, 0, 0x13], &[Chunk::new(0, 5, 1)], &pools)?;
///     assert_eq!(depths, [1]);
/// }
/// # Ok::<(), Box<dyn std::error::Error>>(())
/// ```
#[derive(Clone, Default)]
pub struct Pools {
    /// The lists, or nothing if there is no item: behind one pointer, so that a chained call moves little.
    lists: Option<Own>,
    operators: usize,
    op_assignments: usize,
    fragments: usize,
    functions: usize,
}

/// Lists behind one pointer. They are an array of one: a `Vec` can say that the allocator refuses, and becomes a box of an array.
type Own = Box<[Lists; 1]>;

/// The lists of pools.
#[derive(Clone, Debug, PartialEq, Eq, Hash)]
struct Lists {
    constants: Vec<Constant>,
    names: Vec<u8>,
    /// 0 and then where each name ends; nothing if there is no name.
    starts: Vec<u32>,
    chains: Vec<ChainRow>,
    steps: Vec<StepRow>,
    switches: Vec<SwitchRow>,
    cases: Vec<Case>,
    ranges: Vec<u32>,
}

static NO_LISTS: Lists = Lists::new();

/// A count as the flat form has it. One that doesn't fit is found there: then the counts don't add up.
fn count(length: usize) -> u32 {
    u32::try_from(length).unwrap_or(u32::MAX)
}

/// A count that must fit.
fn fitting(length: usize) -> Result<u32, PoolError> {
    u32::try_from(length).map_err(|_| PoolError::TooLarge)
}

fn push<T>(list: &mut Vec<T>, item: T) -> Result<(), PoolError> {
    list.try_reserve(1)?;
    list.push(item);
    Ok(())
}

/// Adds items, and returns how many they were; adds none if the allocator refuses.
fn extend<T>(list: &mut Vec<T>, items: impl IntoIterator<Item = T>) -> Result<usize, PoolError> {
    let (before, items) = (list.len(), items.into_iter());
    let mut added = list
        .try_reserve(items.size_hint().0)
        .map_err(PoolError::from);
    for item in items {
        added = added.and_then(|()| push(list, item));
        if added.is_err() {
            break;
        }
    }
    if added.is_err() {
        list.truncate(before);
    }
    added.map(|()| list.len() - before)
}

/// For how many bytes each list has room at first when calls are chained, so that it seldom grows.
const FIRST_ROOM: usize = 1024;

/// A list with that room.
fn first_room<T>() -> Vec<T> {
    Vec::with_capacity(FIRST_ROOM / size_of::<T>())
}

/// Whether a list has no more room than that.
fn is_small<T>(list: &Vec<T>) -> bool {
    list.capacity() <= FIRST_ROOM / size_of::<T>()
}

thread_local! {
    /// The small lists of the pools that were dropped last in the thread, without their items.
    static SPARE: Cell<Option<Own>> = const { Cell::new(None) };
}

/// Those lists, or nothing if there are none or the thread is about to end.
fn spare() -> Option<Own> {
    SPARE.try_with(Cell::take).ok().flatten()
}

/// Those lists, or new ones with room for the first items of each.
#[cold]
fn begin() -> Own {
    spare().unwrap_or_else(|| Box::new([Lists::with_room()]))
}

/// Those lists, or new ones without room; an error if the allocator refuses.
fn try_begin() -> Result<Own, PoolError> {
    if let Some(own) = spare() {
        return Ok(own);
    }
    let mut own = Vec::new();
    own.try_reserve_exact(1)?;
    own.push(Lists::new());
    Own::try_from(own).map_err(|_| PoolError::OutOfMemory)
}

impl Lists {
    const fn new() -> Lists {
        Lists {
            constants: Vec::new(),
            names: Vec::new(),
            starts: Vec::new(),
            chains: Vec::new(),
            steps: Vec::new(),
            switches: Vec::new(),
            cases: Vec::new(),
            ranges: Vec::new(),
        }
    }

    fn with_room() -> Lists {
        Lists {
            constants: first_room(),
            names: first_room(),
            starts: first_room(),
            chains: first_room(),
            steps: first_room(),
            switches: first_room(),
            cases: first_room(),
            ranges: first_room(),
        }
    }

    fn are_small(&self) -> bool {
        is_small(&self.constants)
            && is_small(&self.names)
            && is_small(&self.starts)
            && is_small(&self.chains)
            && is_small(&self.steps)
            && is_small(&self.switches)
            && is_small(&self.cases)
            && is_small(&self.ranges)
    }

    fn clear(&mut self) {
        self.constants.clear();
        self.names.clear();
        self.starts.clear();
        self.chains.clear();
        self.steps.clear();
        self.switches.clear();
        self.cases.clear();
        self.ranges.clear();
    }

    fn add_name(&mut self, name: &str) -> Result<usize, PoolError> {
        let end = self.names.len().checked_add(name.len());
        let end = fitting(end.ok_or(PoolError::TooLarge)?)?;
        self.starts.try_reserve(2)?;
        self.names.try_reserve(name.len())?;
        if self.starts.is_empty() {
            self.starts.push(0);
        }
        self.starts.push(end);
        self.names.extend_from_slice(name.as_bytes());
        Ok(self.starts.len() - 2)
    }

    fn add_arms(
        &mut self,
        cases: impl IntoIterator<Item = Case>,
        ranges: impl IntoIterator<Item = u32>,
        otherwise: u32,
    ) -> Result<(), PoolError> {
        let cases = fitting(extend(&mut self.cases, cases)?)?;
        let ranges = fitting(extend(&mut self.ranges, ranges)?)?;
        let row = SwitchRow {
            cases,
            ranges,
            otherwise,
        };
        push(&mut self.switches, row)
    }
}

impl Pools {
    /// Pools with nothing in them. It takes no memory.
    #[must_use]
    pub const fn new() -> Pools {
        Pools {
            lists: None,
            operators: 0,
            op_assignments: 0,
            fragments: 0,
            functions: 0,
        }
    }

    /// Removes all items, and keeps the memory for the next ones.
    pub fn clear(&mut self) {
        if let Some([lists]) = self.lists.as_deref_mut() {
            lists.clear();
        }
        (self.operators, self.op_assignments) = (0, 0);
        (self.fragments, self.functions) = (0, 0);
    }

    fn lists(&self) -> &Lists {
        self.lists.as_deref().map_or(&NO_LISTS, |[lists]| lists)
    }

    /// The lists, to which items are added as to a `Vec`.
    #[inline]
    fn lists_mut(&mut self) -> &mut Lists {
        let [lists] = &mut **self.lists.get_or_insert_with(begin);
        lists
    }

    /// The same; an error if the allocator refuses.
    fn try_lists(&mut self) -> Result<&mut Lists, PoolError> {
        if self.lists.is_none() {
            self.lists = Some(try_begin()?);
        }
        Ok(self.lists_mut())
    }

    /// With one more constant: the [`Caps`](crate::Caps) or the [`Needs`](crate::Needs) that it has.
    #[inline]
    #[must_use]
    pub fn constant(mut self, needs: impl Into<Constant>) -> Pools {
        let lists = self.lists_mut();
        lists.constants.push(needs.into());
        self
    }

    /// With one more name.
    #[inline]
    #[must_use]
    pub fn name(mut self, name: &str) -> Pools {
        let lists = self.lists_mut();
        lists.names.extend_from_slice(name.as_bytes());
        if lists.starts.is_empty() {
            lists.starts.push(0);
        }
        lists.starts.push(count(lists.names.len()));
        self
    }

    /// With this many operators.
    #[inline]
    #[must_use]
    pub fn operators(mut self, operators: usize) -> Pools {
        self.set_operators(operators);
        self
    }

    /// With this many op-assignments.
    #[inline]
    #[must_use]
    pub fn op_assignments(mut self, op_assignments: usize) -> Pools {
        self.set_op_assignments(op_assignments);
        self
    }

    /// With this many fragments of syntax.
    #[inline]
    #[must_use]
    pub fn fragments(mut self, fragments: usize) -> Pools {
        self.set_fragments(fragments);
        self
    }

    /// With this many functions.
    #[inline]
    #[must_use]
    pub fn functions(mut self, functions: usize) -> Pools {
        self.set_functions(functions);
        self
    }

    /// With one more chain, whose steps take this many operands.
    #[inline]
    #[must_use]
    pub fn chain(mut self, root: Root, steps: &[Step], tail: Tail, operands: u16) -> Pools {
        let lists = self.lists_mut();
        let row = ChainRow::new(root, count(steps.len()), tail, operands);
        lists.chains.push(row);
        lists.steps.extend(steps.iter().copied().map(StepRow::from));
        self
    }

    /// With one more switch: its cases, the target of each of its ranges, and the target of all other subjects.
    #[inline]
    #[must_use]
    pub fn switch(mut self, cases: &[Case], ranges: &[u32], otherwise: u32) -> Pools {
        let lists = self.lists_mut();
        lists.switches.push(SwitchRow {
            cases: count(cases.len()),
            ranges: count(ranges.len()),
            otherwise,
        });
        lists.cases.extend_from_slice(cases);
        lists.ranges.extend_from_slice(ranges);
        self
    }

    /// Sets how many operators there are.
    #[inline]
    pub fn set_operators(&mut self, operators: usize) {
        self.operators = operators;
    }

    /// Sets how many op-assignments there are.
    #[inline]
    pub fn set_op_assignments(&mut self, op_assignments: usize) {
        self.op_assignments = op_assignments;
    }

    /// Sets how many fragments of syntax there are.
    #[inline]
    pub fn set_fragments(&mut self, fragments: usize) {
        self.fragments = fragments;
    }

    /// Sets how many functions there are.
    #[inline]
    pub fn set_functions(&mut self, functions: usize) {
        self.functions = functions;
    }

    /// Adds a constant, and returns its index.
    ///
    /// # Errors
    /// The allocator refused.
    pub fn add_constant(&mut self, needs: impl Into<Constant>) -> Result<usize, PoolError> {
        let lists = self.try_lists()?;
        push(&mut lists.constants, needs.into())?;
        Ok(lists.constants.len() - 1)
    }

    /// Adds constants, and returns how many they are.
    ///
    /// # Errors
    /// The allocator refused; then none is added.
    pub fn extend_constants<C: Into<Constant>>(
        &mut self,
        needs: impl IntoIterator<Item = C>,
    ) -> Result<usize, PoolError> {
        let lists = self.try_lists()?;
        extend(&mut lists.constants, needs.into_iter().map(Into::into))
    }

    /// Adds a name, and returns its index.
    ///
    /// # Errors
    /// The allocator refused, or the names are too long together.
    pub fn add_name(&mut self, name: &str) -> Result<usize, PoolError> {
        self.try_lists()?.add_name(name)
    }

    /// Adds names, and returns how many they are.
    ///
    /// # Errors
    /// The allocator refused, or the names are too long together; then none is added.
    pub fn extend_names<N: AsRef<str>>(
        &mut self,
        names: impl IntoIterator<Item = N>,
    ) -> Result<usize, PoolError> {
        let lists = self.try_lists()?;
        let (starts, bytes) = (lists.starts.len(), lists.names.len());
        let mut added = 0;
        for name in names {
            if let Err(error) = lists.add_name(name.as_ref()) {
                lists.starts.truncate(starts);
                lists.names.truncate(bytes);
                return Err(error);
            }
            added += 1;
        }
        Ok(added)
    }

    /// Adds a chain, whose steps take this many operands, and returns its index.
    ///
    /// # Errors
    /// The allocator refused, or there are too many steps.
    pub fn add_chain(
        &mut self,
        root: Root,
        steps: impl IntoIterator<Item = Step>,
        tail: Tail,
        operands: u16,
    ) -> Result<usize, PoolError> {
        let lists = self.try_lists()?;
        let before = lists.steps.len();
        lists.chains.try_reserve(1)?;
        let many = extend(&mut lists.steps, steps.into_iter().map(StepRow::from))?;
        let Ok(many) = fitting(many) else {
            lists.steps.truncate(before);
            return Err(PoolError::TooLarge);
        };
        lists.chains.push(ChainRow::new(root, many, tail, operands));
        Ok(lists.chains.len() - 1)
    }

    /// Adds a switch, as [`switch`](Pools::switch) takes it, and returns its index.
    ///
    /// # Errors
    /// The allocator refused, or there are too many cases or ranges.
    pub fn add_switch(
        &mut self,
        cases: impl IntoIterator<Item = Case>,
        ranges: impl IntoIterator<Item = u32>,
        otherwise: u32,
    ) -> Result<usize, PoolError> {
        let lists = self.try_lists()?;
        let before = (lists.cases.len(), lists.ranges.len());
        let added = lists.add_arms(cases, ranges, otherwise);
        if added.is_err() {
            lists.cases.truncate(before.0);
            lists.ranges.truncate(before.1);
        }
        added.map(|()| lists.switches.len() - 1)
    }

    /// The lists in their flat form, borrowed.
    #[must_use]
    pub fn flat(&self) -> FlatPools<'_> {
        let lists = self.lists();
        let starts: &[u32] = if lists.starts.is_empty() {
            &[0]
        } else {
            &lists.starts
        };
        FlatPools::new()
            .constants(&lists.constants)
            .names(&lists.names, starts)
            .operators(self.operators)
            .op_assignments(self.op_assignments)
            .fragments(self.fragments)
            .functions(self.functions)
            .chains(&lists.chains, &lists.steps)
            .switches(&lists.switches, &lists.cases, &lists.ranges)
            .of_builder()
    }

    /// The lists and the counts.
    fn parts(&self) -> (&Lists, [usize; 4]) {
        let counts = [
            self.operators,
            self.op_assignments,
            self.fragments,
            self.functions,
        ];
        (self.lists(), counts)
    }
}

/// Leaves small lists to the next pools of the thread.
fn leave(mut own: Own) {
    let [lists] = &mut *own;
    if lists.are_small() {
        lists.clear();
        // Nothing keeps them where the thread is about to end.
        let _ = SPARE.try_with(|spare| spare.set(Some(own)));
    }
}

impl Drop for Pools {
    // As a call it would need the pools in memory, and then each chained call would write and read all of them.
    #[inline(always)]
    fn drop(&mut self) {
        if let Some(own) = self.lists.take() {
            leave(own);
        }
    }
}

impl PartialEq for Pools {
    fn eq(&self, other: &Pools) -> bool {
        self.parts() == other.parts()
    }
}

impl Eq for Pools {}

impl Hash for Pools {
    fn hash<H: Hasher>(&self, state: &mut H) {
        self.parts().hash(state);
    }
}

impl fmt::Debug for Pools {
    fn fmt(&self, f: &mut fmt::Formatter<'_>) -> fmt::Result {
        f.debug_struct("Pools")
            .field("lists", self.lists())
            .field("operators", &self.operators)
            .field("op_assignments", &self.op_assignments)
            .field("fragments", &self.fragments)
            .field("functions", &self.functions)
            .finish()
    }
}
