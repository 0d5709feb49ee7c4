//! Programs with pools.
mod common;

use common::{bytes, found, refusal, whole};
use grain::{
    verify, verify_into, Caps, Case, Chunk, Flaw, Kind, Needs, Pools, Root, Step, Tail, VerifyError,
};

fn judged(code: &str, pools: &Pools) -> Result<Vec<u16>, VerifyError> {
    let code = bytes(code);
    verify(Caps::ALL, &code, &whole(&code), pools)
}

const ON_SWITCH: &str = "0218000002130213";
const ON_CHAIN: &str = "0216000013";

#[test]
fn switches_lead_to_starts_of_the_chunk() {
    let with = |target, constant| {
        Pools::new().constant(Caps::NONE).switch(
            &[
                Case { target, constant },
                Case {
                    target: 6,
                    constant: 0,
                },
            ],
            &[6],
            6,
        )
    };
    assert_eq!(judged(ON_SWITCH, &with(4, 0)), Ok(vec![2]));
    let cause = |pools: &Pools| found(judged(ON_SWITCH, pools));
    assert_eq!(
        cause(&with(2, 0)),
        (Some(1), Flaw::JumpIntoAnInstruction { target: 2 })
    );
    assert_eq!(
        cause(&with(9999, 0)),
        (Some(1), Flaw::JumpOutOfRange { target: 9999 })
    );
    assert_eq!(
        cause(&with(4, 1)),
        (
            Some(1),
            Flaw::BadIndex {
                what: Kind::Constant,
                index: 1
            }
        )
    );
    let to_default = Pools::new().switch(&[], &[], 2);
    assert_eq!(
        cause(&to_default),
        (Some(1), Flaw::JumpIntoAnInstruction { target: 2 })
    );
    let to_range = Pools::new().switch(&[], &[4, 2], 4);
    assert_eq!(
        cause(&to_range),
        (Some(1), Flaw::JumpIntoAnInstruction { target: 2 })
    );
}

/// One case, whose constant is the last of 43, and a default.
#[test]
fn cases_and_defaults_lead_to_starts_of_the_chunk() {
    let with = |target, otherwise| {
        let constant = Case {
            target,
            constant: 42,
        };
        let mut pools = Pools::new().switch(&[constant], &[], otherwise);
        assert_eq!(pools.extend_constants([Caps::NONE; 43]), Ok(43));
        judged(ON_SWITCH, &pools)
    };
    assert_eq!(with(4, 6), Ok(vec![2]));
    assert_eq!(
        found(with(2, 6)),
        (Some(1), Flaw::JumpIntoAnInstruction { target: 2 })
    );
    assert_eq!(
        found(with(4, 9999)),
        (Some(1), Flaw::JumpOutOfRange { target: 9999 })
    );
}

#[test]
fn pieces_belong_to_the_item_at_their_place() {
    let property = |name| {
        [Step::Property {
            name,
            getter: 0,
            setter: 0,
        }]
    };
    let pools = Pools::new()
        .name("x")
        .chain(Root::Temporary, &property(0), Tail::Read, 0)
        .chain(Root::This, &[], Tail::Read, 0)
        .chain(Root::Temporary, &property(7), Tail::Read, 0);
    assert_eq!(judged(ON_CHAIN, &pools), Ok(vec![1]));
    assert_eq!(judged("1601000213", &pools), Ok(vec![2]));
    let cause = found(judged("0216020013", &pools));
    assert_eq!(
        cause,
        (
            Some(1),
            Flaw::BadIndex {
                what: Kind::Name,
                index: 7
            }
        )
    );
    let switches = Pools::new().switch(&[], &[6], 6).switch(&[], &[2], 6);
    assert_eq!(judged(ON_SWITCH, &switches), Ok(vec![2]));
    let cause = found(judged("0218010002130213", &switches));
    assert_eq!(cause, (Some(1), Flaw::JumpIntoAnInstruction { target: 2 }));
}

#[test]
fn chains_need_operands_names_and_capabilities() {
    let one = |root, step: &[Step], tail, operands| {
        Pools::new().name("x").chain(root, step, tail, operands)
    };
    let cause = |pools: Pools| found(judged(ON_CHAIN, &pools));
    let name = |index| {
        (
            Some(1),
            Flaw::BadIndex {
                what: Kind::Name,
                index,
            },
        )
    };
    assert_eq!(
        cause(one(Root::Named { name: 3 }, &[], Tail::Read, 0)),
        name(3)
    );
    assert_eq!(
        cause(one(Root::Local { name: 4, slot: 0 }, &[], Tail::Read, 0)),
        name(4)
    );
    let method = Step::Method {
        name: 5,
        argc: 0,
        operand: 0,
    };
    assert_eq!(
        cause(one(Root::Temporary, &[method], Tail::Read, 0)),
        name(5)
    );
    let op = Tail::AssignThrough { op: 2 };
    assert_eq!(
        cause(one(Root::Temporary, &[], op, 0)),
        (
            Some(1),
            Flaw::BadIndex {
                what: Kind::OpAssignment,
                index: 2
            }
        )
    );
    assert_eq!(
        cause(one(
            Root::Temporary,
            &[Step::Index { operand: 1 }],
            Tail::Read,
            1
        )),
        (
            Some(1),
            Flaw::BadIndex {
                what: Kind::Operand,
                index: 1
            }
        )
    );
    let code = bytes(ON_CHAIN);
    let this = one(Root::This, &[], Tail::Read, 0);
    let refused = refusal(verify(Caps::NONE, &code, &whole(&code), &this));
    assert_eq!(refused.address(), Some(1));
    let (missing, host) = (Caps::THIS, Caps::NONE);
    assert_eq!(refused.flaw(), Flaw::MissingCaps { missing, host });
    assert_eq!(refused.chunk(), Some(0));
}

fn method(name: u32, argc: u8, operand: u16) -> Step {
    Step::Method {
        name,
        argc,
        operand,
    }
}

fn property(name: u32) -> Step {
    Step::Property {
        name,
        getter: 0,
        setter: 0,
    }
}

fn bad_index(at: u32, what: Kind, index: u32) -> (Option<u32>, Flaw) {
    (Some(at), Flaw::BadIndex { what, index })
}

#[test]
fn indices_inside_chains_are_bounded() {
    let temporary = Root::Temporary;
    let chains: [(Root, &[Step], Tail, Kind, u32); 5] = [
        (Root::Named { name: 3 }, &[], Tail::Read, Kind::Name, 3),
        (
            Root::Local { name: 3, slot: 0 },
            &[],
            Tail::Read,
            Kind::Name,
            3,
        ),
        (temporary, &[property(3)], Tail::Read, Kind::Name, 3),
        (temporary, &[method(3, 0, 0)], Tail::Read, Kind::Name, 3),
        (
            temporary,
            &[],
            Tail::AssignThrough { op: 2 },
            Kind::OpAssignment,
            2,
        ),
    ];
    for (root, steps, tail, what, index) in chains {
        let pools = Pools::new().name("x").chain(root, steps, tail, 0);
        let cause = found(judged("16000013", &pools));
        assert_eq!(cause, bad_index(0, what, index));
    }
    let steps = [property(0), method(0, 0, 0)];
    let root = Root::Named { name: 0 };
    let pools = Pools::new().name("x").chain(root, &steps, Tail::Read, 2);
    assert_eq!(judged("020216000013", &pools), Ok(vec![2]));
}

/// Behind one, two and three units.
const ONE: &str = "0216000013";
const TWO: &str = "020216000013";
const THREE: &str = "02020216000013";

#[test]
fn steps_keep_within_the_operands() {
    let with = |code, step, operands| {
        let pools = Pools::new()
            .name("x")
            .chain(Root::Temporary, &[step], Tail::Read, operands);
        judged(code, &pools)
    };
    let index = Step::Index { operand: 0 };
    for (code, step, operands, deepest) in [
        (TWO, index, 1, 2),
        (THREE, method(0, 2, 0), 2, 3),
        (ONE, method(0, 0, 65535), 0, 1),
    ] {
        assert_eq!(with(code, step, operands), Ok(vec![deepest]));
    }
    for (code, step, operands, cause) in [
        (ONE, index, 0, bad_index(1, Kind::Operand, 0)),
        (THREE, method(0, 2, 1), 2, bad_index(3, Kind::Operand, 2)),
        (
            ONE,
            method(0, 255, 65535),
            65535,
            bad_index(1, Kind::Operand, 65789),
        ),
        (ONE, method(3, 2, 1), 0, bad_index(1, Kind::Name, 3)),
    ] {
        assert_eq!(found(with(code, step, operands)), cause);
    }
}

#[test]
fn constants_and_functions_need_capabilities() {
    let code = bytes("0213");
    let refused = |has, pools: Pools| refusal(verify(has, &code, &whole(&code), &pools));
    let needing = Pools::new()
        .constant(Needs::Unknown)
        .constant(Caps::MAP | Caps::BLOB)
        .constant(Caps::ARRAY);
    let first = refused(Caps::BLOB, needing);
    let (missing, host) = (Caps::MAP | Caps::BLOB, Caps::BLOB);
    assert_eq!(first.flaw(), Flaw::MissingCaps { missing, host });
    assert_eq!((first.chunk(), first.address()), (None, None));
    assert_eq!(
        first.to_string(),
        "a constant needs MAP, which the host doesn't have"
    );
    let of_functions = refused(Caps::NONE, Pools::new().functions(3));
    let (missing, host) = (Caps::FUNCTION, Caps::NONE);
    assert_eq!(of_functions.flaw(), Flaw::MissingCaps { missing, host });
    assert_eq!(
        of_functions.to_string(),
        "a function or a constant needs FUNCTION, which the host doesn't have"
    );
}

#[test]
fn what_is_visited_is_counted() {
    let code = bytes("02130b13");
    let chunk = Chunk::new(0, 2, 1);
    let mut depths = [77; 3];
    let pools = Pools::new();
    let visited = verify_into(Caps::ALL, &code, &[chunk, chunk], &pools, &mut depths);
    assert_eq!((visited, depths), (Ok(4), [1, 1, 77]));
    let lacking = Chunk::new(2, 4, 1);
    let refused = refusal(verify(Caps::ALL, &code, &[chunk, lacking], &pools));
    assert_eq!(refused.visited(), 3);
}

/// The depth of the code as one chunk that declares so much, or what is wrong with it, and how many instructions were visited.
fn visited(code: &str, max_stack: u16) -> (Result<u16, (Option<u32>, Flaw)>, u64) {
    let code = bytes(code);
    let chunk = Chunk {
        max_stack,
        ..whole(&code)[0]
    };
    let mut depths = [0];
    match verify_into(Caps::ALL, &code, &[chunk], &Pools::new(), &mut depths) {
        Ok(visited) => (Ok(depths[0]), visited),
        Err(error) => (
            Err(found::<()>(Err(error))),
            refusal::<()>(Err(error)).visited(),
        ),
    }
}

#[test]
fn no_more_is_counted_than_is_reached() {
    assert_eq!(visited("2308000000022213220213", 8).1, 7);
    assert_eq!(visited("130c63000000", 8), (Ok(0), 1));
    let (said, count) = visited("020e070000000213", 8);
    let (expected, found) = (1, 0);
    assert_eq!(
        said,
        Err((Some(7), Flaw::DepthConflict { expected, found }))
    );
    assert!(count <= 4);
}

/// The library keeps where instructions begin in words of 64 bits.
#[test]
fn words_of_starts_end_where_code_does() {
    for units in [64, 65, 128] {
        let code = "02".repeat(usize::from(units)) + "13";
        assert_eq!(visited(&code, units), (Ok(units), u64::from(units) + 1));
    }
}

#[test]
fn what_is_of_no_chunk_has_no_index() {
    let front = Chunk::new(0, 2, 8);
    let said = verify(Caps::ALL, &bytes("0213ff"), &[front], &Pools::new());
    let refused = refusal(said);
    assert_eq!(
        (refused.address(), refused.flaw(), refused.chunk()),
        (Some(2), Flaw::Undecodable, None)
    );
}

#[test]
fn the_index_of_the_first_chunk_that_is_refused_is_told() {
    let code = bytes("02130b13");
    let (good, bad) = (Chunk::new(0, 2, 1), Chunk::new(2, 4, 1));
    for many in [0, 1, 2, 3, 30, 1000] {
        for behind in [0, 1, 5] {
            let mut chunks = vec![good; many];
            chunks.push(bad);
            chunks.resize(many + 1 + behind, bad);
            let refused = refusal(verify(Caps::ALL, &code, &chunks, &Pools::new()));
            assert_eq!(refused.chunk(), Some(many));
            assert_eq!(refused.address(), Some(2));
            assert_eq!(refused.flaw(), Flaw::Underflow { need: 1, have: 0 });
        }
    }
}
