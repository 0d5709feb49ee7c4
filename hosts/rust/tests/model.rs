//! Programs with pools, made by chance, judged by the library and by a plain model of verification alike.
mod common;

use common::chance::Chance;
use common::model::{Model, Table};
use common::programs::{built, program, Program};
use common::refusal;
use grain::{
    explain, tighten, verify, verify_into, Caps, Explained, Flaw, Pools, Refusal, Row, Verifier,
    VerifyError,
};
use std::collections::BTreeMap;

/// What became of some programs: how many were accepted, and how many refused for each flaw.
#[derive(Default)]
struct Tally {
    accepted: usize,
    refused: BTreeMap<String, usize>,
}

/// The depths, and how many instructions are visited.
type Said = Result<(Vec<u16>, u64), VerifyError>;

fn judged(program: &Program, pools: &Pools) -> Said {
    let Program {
        caps, code, chunks, ..
    } = program;
    let mut depths = vec![0; chunks.len()];
    let visited = verify_into(*caps, code, chunks, pools, &mut depths)?;
    Ok((depths, visited))
}

/// The verdict in memory in which all programs before it were verified, which is the same.
fn judge_again(verifier: &mut Verifier, program: &Program, pools: &Pools, said: &Said) {
    let Program {
        caps, code, chunks, ..
    } = program;
    let mut depths = vec![0; chunks.len()];
    let again = verifier.verify_into(*caps, code, chunks, pools, &mut depths);
    assert_eq!(&again.map(|visited| (depths, visited)), said, "{program:?}");
}

/// The first word of a flaw.
fn word(flaw: &Flaw) -> String {
    let text = format!("{flaw:?}");
    text.split([' ', '(']).next().unwrap().to_string()
}

fn compare(program: &Program, table: &Table, verifier: &mut Verifier, tally: &mut Tally) {
    let pools = built(&program.pools);
    let model = Model {
        table,
        caps: program.caps,
        code: &program.code,
        chunks: &program.chunks,
        pools: &program.pools,
    };
    let said = judged(program, &pools);
    judge_again(verifier, program, &pools, &said);
    match (said, model.verdict()) {
        (Ok(said), Ok(wanted)) => {
            assert_eq!(said, wanted, "{program:?}");
            tighten_well(program, &pools, &said.0);
            explain_accepted(program, &pools, &said);
            tally.accepted += 1;
        }
        (Err(error), Err((chunk, flaws))) => {
            let refusal = refusal::<()>(Err(error));
            assert_eq!(refusal.chunk(), chunk, "{program:?}");
            assert!(
                flaws.contains(&(refusal.address(), refusal.flaw())),
                "{refusal:?} is none of {flaws:?} in {program:?}"
            );
            place_well(program, &pools, &refusal);
            explain_refused(program, &pools, &refusal);
            *tally.refused.entry(word(&refusal.flaw())).or_default() += 1;
        }
        (said, wanted) => panic!("the library says {said:?}, the model {wanted:?}, of {program:?}"),
    }
}

/// Tightened, the chunks declare their depths, and are accepted with them.
fn tighten_well(program: &Program, pools: &Pools, depths: &[u16]) {
    let mut chunks = program.chunks.clone();
    tighten(program.caps, &program.code, &mut chunks, pools).unwrap();
    assert!(chunks
        .iter()
        .map(|chunk| chunk.max_stack)
        .eq(depths.iter().copied()));
    let again = verify(program.caps, &program.code, &chunks, pools);
    assert_eq!(again.as_deref(), Ok(depths));
}

fn explained<'a>(program: &'a Program, pools: &'a Pools, chunk: usize) -> Explained<'a> {
    let Program {
        caps, code, chunks, ..
    } = program;
    explain(*caps, code, chunks, pools, chunk).unwrap()
}

fn are_in_order(rows: &[Row]) -> bool {
    rows.windows(2)
        .all(|two| two[0].address() < two[1].address())
}

/// The rows of the chunks are what is reached, each once, and the deepest has as many operands as the depth says.
fn explain_accepted(program: &Program, pools: &Pools, (depths, visited): &(Vec<u16>, u64)) {
    let mut rows = 0;
    for (chunk, depth) in depths.iter().enumerate() {
        let explained = explained(program, pools, chunk);
        assert!(explained.refusal().is_none(), "{explained}");
        assert!(are_in_order(explained.rows()), "{explained}");
        let most = explained.rows().iter().map(|row| row.operands()).max();
        assert_eq!(most, Some(u32::from(*depth)), "{explained}");
        assert!(explained.to_string().contains("passes"), "{explained}");
        rows += explained.rows().len() as u64;
    }
    assert_eq!(rows, *visited, "{program:?}");
}

/// The refusal is explained: the chunk has the flaw that the verdict names, and its paths lead from its entry to it; those before
/// it pass.
fn explain_refused(program: &Program, pools: &Pools, refusal: &Refusal) {
    let Program {
        caps, code, chunks, ..
    } = program;
    let whole = explain(*caps, code, chunks, pools, refusal).unwrap();
    let again = whole.refusal().expect("a flaw");
    assert_eq!(again.flaw(), refusal.flaw(), "{whole}");
    assert_eq!(
        (again.chunk(), again.address()),
        (refusal.chunk(), refusal.address())
    );
    assert!(whole.to_string().starts_with("refused: "), "{whole}");
    let Some(chunk) = refusal.chunk() else {
        assert!(whole.rows().is_empty() && whole.path().is_empty());
        return;
    };
    for place in 0..chunk {
        assert!(explained(program, pools, place).refusal().is_none());
    }
    assert!(are_in_order(whole.rows()), "{whole}");
    let is_conflict = matches!(refusal.flaw(), Flaw::DepthConflict { .. });
    assert_eq!(is_conflict, !whole.other_path().is_empty(), "{whole}");
    for path in [whole.path(), whole.other_path()] {
        let (Some(first), Some(last)) = (path.first(), path.last()) else {
            continue;
        };
        let entry = program.chunks[chunk].entry;
        assert_eq!(
            (first.address(), first.operands(), first.iterators()),
            (entry, 0, 0)
        );
        assert_eq!(whole.bases(first).len(), 0);
        if let Some(address) = refusal.address() {
            assert_eq!(address, last.address(), "{whole}");
        }
    }
}

/// The constant that is refused is the first that needs what isn't there; and the place in a chain that is refused exists.
fn place_well(program: &Program, pools: &Pools, refusal: &Refusal) {
    let is_refused = |needed: &Option<Caps>| needed.is_some_and(|it| !program.caps.contains(it));
    let of_constant = match refusal.flaw() {
        Flaw::MissingCaps { .. } if refusal.chunk().is_none() => {
            program.pools.constants.iter().position(is_refused)
        }
        _ => None,
    };
    assert_eq!(refusal.constant(pools), of_constant, "{program:?}");
    if let Some(place) = refusal.chain_place(&program.code, pools) {
        assert!(place.chain < program.pools.chains.len(), "{program:?}");
        let address = refusal.address().unwrap();
        assert_eq!(program.code[address as usize], 0x16, "{program:?}");
    }
}

fn compare_many(seed: u64, many: usize) -> Tally {
    let (table, mut chance) = (Table::read(), Chance(seed));
    let (mut verifier, mut tally) = (Verifier::new(), Tally::default());
    for _ in 0..many {
        let program = program(&mut chance, &table);
        compare(&program, &table, &mut verifier, &mut tally);
    }
    tally
}

#[test]
fn programs_are_judged_as_by_the_model() {
    let tally = compare_many(7, 600);
    assert!((150..450).contains(&tally.accepted), "{}", tally.accepted);
    assert!(tally.refused.len() >= 9, "{:?}", tally.refused);
}

#[test]
#[ignore = "takes its time"]
fn many_programs_are_judged_as_by_the_model() {
    const MANY: usize = 200_000;
    let tally = compare_many(1, MANY);
    println!(
        "{} of {MANY} were accepted, and the others refused by {:?}",
        tally.accepted, tally.refused
    );
    assert!(
        (MANY / 4..MANY * 3 / 4).contains(&tally.accepted),
        "{}",
        tally.accepted
    );
    // All that is ever answered.
    assert_eq!(tally.refused.len(), 13, "{:?}", tally.refused);
}
