//! Pools whose entries are large, and are named by many instructions; and what there are more than 65,535 of. EMBEDDING.md says
//! what each of these costs.
mod common;

use common::{found, whole};
use grain::{verify, Caps, Case, Chunk, Flaw, Kind, Pools, Root, Step, Tail, VerifyError};

/// How many there are of what is long, deep or many.
const MANY: u32 = 300;

const LOAD_NAMED: [u8; 3] = [0x19, 0, 0];
const CHAIN: [u8; 3] = [0x16, 0, 0];
const SWITCH: [u8; 3] = [0x18, 0, 0];
const POP: u8 = 0x0b;
const PUSH_HANDLER: u8 = 0x23;
const POP_HANDLER: u8 = 0x22;
const UNIT: u8 = 0x02;
const RETURN: u8 = 0x13;

/// What is said of the code as one chunk that declares 8.
fn said(caps: Caps, code: &[u8], pools: &Pools) -> Result<Vec<u16>, VerifyError> {
    verify(caps, code, &whole(code), pools)
}

/// Code that begins and ends so, between which these bytes stand many times.
fn repeated(first: &[u8], part: &[u8], last: &[u8]) -> Vec<u8> {
    [first, &part.repeat(MANY as usize), last].concat()
}

#[test]
fn one_switch_is_named_by_all() {
    let code = repeated(&[UNIT], &SWITCH, &[UNIT, RETURN]);
    let cases: Vec<Case> = (0..MANY)
        .map(|case| Case {
            target: 1 + 3 * case,
            constant: 0,
        })
        .collect();
    let with = |default| {
        Pools::new()
            .constant(Caps::NONE)
            .switch(&cases, &[], default)
    };
    let all = Caps::ALL;
    assert_eq!(said(all, &code, &with(1 + 3 * MANY)), Ok(vec![2]));
    assert_eq!(
        found(said(all, &code, &with(2))),
        (Some(1), Flaw::JumpIntoAnInstruction { target: 2 })
    );
    assert_eq!(
        found(said(all, &code, &with(0))),
        (
            Some(0),
            Flaw::DepthConflict {
                expected: 0,
                found: 1
            }
        )
    );
}

/// What is found where the instruction at the address needs those, which the host alone lacks.
fn lacks(at: u32, missing: Caps) -> (Option<u32>, Flaw) {
    let host = Caps::ALL - missing;
    (Some(at), Flaw::MissingCaps { missing, host })
}

#[test]
fn one_long_name_is_named_by_all() {
    let code = repeated(&[], &[&LOAD_NAMED[..], &[POP]].concat(), &[UNIT, RETURN]);
    let name = "module::".repeat(MANY as usize) + "variable";
    let pools = Pools::new().name(&name);
    assert_eq!(said(Caps::ALL, &code, &pools), Ok(vec![1]));
    let refused = said(Caps::ALL - Caps::MODULE, &code, &pools);
    assert_eq!(found(refused), lacks(0, Caps::MODULE));
}

/// Pools with a chain of many properties, of which all but the last have name 0.
fn with_long_chain(last: u32) -> Pools {
    let steps: Vec<Step> = (1..=MANY)
        .map(|step| Step::Property {
            name: if step == MANY { last } else { 0 },
            getter: 0,
            setter: 0,
        })
        .collect();
    Pools::new()
        .name("p")
        .chain(Root::Temporary, &steps, Tail::Read, 0)
}

#[test]
fn one_long_chain_is_named_by_all() {
    let code = repeated(&[UNIT], &CHAIN, &[POP, UNIT, RETURN]);
    let pools = with_long_chain(0);
    assert_eq!(said(Caps::ALL, &code, &pools), Ok(vec![1]));
    let refused = said(Caps::ALL - Caps::PROPERTY, &code, &pools);
    assert_eq!(found(refused), lacks(1, Caps::PROPERTY));
    assert_eq!(
        found(said(Caps::ALL, &code, &with_long_chain(1))),
        (
            Some(1),
            Flaw::BadIndex {
                what: Kind::Name,
                index: 1
            }
        )
    );
}

/// Handlers of this number, of which number k is caught where the rest after k handlers were armed is popped.
fn handlers(count: u32) -> Vec<u8> {
    let mut code = Vec::new();
    for later in (0..count).rev() {
        code.push(PUSH_HANDLER);
        code.extend((5 * count + later).to_le_bytes());
    }
    code.extend(vec![POP_HANDLER; count as usize]);
    code.extend([UNIT, RETURN]);
    code
}

#[test]
fn handlers_are_many() {
    for count in [MANY, 70_000] {
        let answer = said(Caps::ALL, &handlers(count), &Pools::new());
        assert_eq!(answer, Ok(vec![1]), "{count}");
    }
}

/// Only the last of 1001 ranges leads to 6, as what is in none of them.
#[test]
fn ranges_are_many() {
    let mut ranges = vec![4; 1000];
    ranges.push(6);
    let code = [&[UNIT], &SWITCH[..], &[UNIT, RETURN, UNIT, RETURN]].concat();
    let pools = Pools::new().switch(&[], &ranges, 6);
    assert_eq!(said(Caps::ALL, &code, &pools), Ok(vec![2]));
}

#[test]
fn chunks_are_many() {
    let chunks = vec![Chunk::new(0, 2, 1); 65_537];
    let depths = verify(Caps::ALL, &[UNIT, RETURN], &chunks, &Pools::new());
    assert_eq!(depths, Ok(vec![1; 65_537]));
}

/// Branches of this number, each of them to the next, and a return.
#[test]
fn branches_are_many() {
    let mut code = Vec::new();
    for block in 1..=3000u32 {
        code.extend([0x04, 0x0e]);
        code.extend((8 * block).to_le_bytes());
        code.extend([UNIT, POP]);
    }
    code.push(RETURN);
    assert_eq!(said(Caps::ALL, &code, &Pools::new()), Ok(vec![1]));
}
