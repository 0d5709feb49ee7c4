//! Where in the pools the refused item is. The record of a refusal doesn't say it, so it is searched for by the same tests, in
//! their order (FORMAT.md, "Verification").
use crate::capabilities::Caps;
use crate::code::{instruction, Kind};
use crate::flat::FlatPools;
use crate::refusal::{Flaw, Refusal};
use crate::rows::{ChainRow, Root, Step, StepRow, Tail};

/// A part of a chain: where it is refused ([`Refusal::chain_place`]).
#[derive(Clone, Copy, Debug, PartialEq, Eq, Hash)]
pub struct ChainPlace {
    /// The index of the chain.
    pub chain: usize,
    /// The part of it.
    pub part: ChainPart,
}

/// What a chain consists of.
#[derive(Clone, Copy, Debug, PartialEq, Eq, Hash)]
pub enum ChainPart {
    /// Where it begins.
    Root,
    /// The step at this place.
    Step(usize),
    /// What it does at its end.
    Tail,
}

pub(crate) fn constant(refusal: &Refusal, pools: &FlatPools<'_>) -> Option<usize> {
    let Flaw::MissingCaps { host, .. } = refusal.flaw() else {
        return None;
    };
    if refusal.chunk().is_some() {
        return None;
    }
    pools
        .constant_rows()
        .iter()
        .position(|row| row.bits().is_some_and(|bits| bits & !host.bits() != 0))
}

pub(crate) fn chain_place(
    refusal: &Refusal,
    code: &[u8],
    pools: &FlatPools<'_>,
) -> Option<ChainPlace> {
    let found = instruction(code, refusal.address()?)?;
    let chain = usize::try_from(found.field(Kind::Chain)?).ok()?;
    let (row, steps) = pools.chain(chain)?;
    let part = match refusal.flaw() {
        Flaw::BadIndex { what, .. } if what != Kind::Chain => out_of_bounds(row, steps, pools),
        Flaw::MissingCaps { missing, .. } => needing(row, steps, missing),
        _ => None,
    }?;
    Some(ChainPlace { chain, part })
}

/// The first part with an index out of bounds.
fn out_of_bounds(row: ChainRow, steps: &[StepRow], pools: &FlatPools<'_>) -> Option<ChainPart> {
    let is_name = |name: u32| (name as usize) < pools.count_names();
    let is_root_sound = match row.root() {
        Root::Local { name, .. } | Root::Named { name } => is_name(name),
        Root::This | Root::Temporary => true,
    };
    if !is_root_sound {
        return Some(ChainPart::Root);
    }
    let is_step_sound = |step: Step| match step {
        Step::Index { operand } => operand < row.operands(),
        Step::Property {
            name,
            getter,
            setter,
        } => is_name(name) && is_name(getter) && is_name(setter),
        Step::Method {
            name,
            argc,
            operand,
        } => {
            let end = u32::from(operand) + u32::from(argc);
            is_name(name) && (argc == 0 || end <= u32::from(row.operands()))
        }
    };
    let step = steps
        .iter()
        .position(|step| !is_step_sound(Step::from(*step)));
    match (step, row.tail()) {
        (Some(step), _) => Some(ChainPart::Step(step)),
        (None, Tail::AssignThrough { .. }) => Some(ChainPart::Tail),
        (None, Tail::Read | Tail::Assign) => None,
    }
}

/// The first part that needs one of these capabilities.
fn needing(row: ChainRow, steps: &[StepRow], missing: Caps) -> Option<ChainPart> {
    if row.root() == Root::This && missing.intersects(Caps::THIS) {
        return Some(ChainPart::Root);
    }
    let needed = |step: Step| match step {
        Step::Index { .. } => Caps::INDEXING,
        Step::Property { .. } => Caps::PROPERTY,
        Step::Method { .. } => Caps::METHOD,
    };
    steps
        .iter()
        .position(|step| missing.intersects(needed(Step::from(*step))))
        .map(ChainPart::Step)
}
