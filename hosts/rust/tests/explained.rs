//! Explanations: what they show, and how they print.
mod common;

use common::{bytes, refusal, whole};
use grain::{
    explain, verify, Base, Caps, Chunk, ExplainError, FlatPools, Needs, Pools, Program, Row,
    StepRow,
};

/// A loop that leaves an operand each round.
const LOOP: &str = "021d1e0c0000000c020000000213";

fn counts(row: &Row) -> (u32, u32, u32) {
    (row.address(), row.operands(), row.iterators())
}

#[test]
fn a_conflict_has_two_paths() {
    let (code, pools) = (bytes(LOOP), Pools::new());
    let refused = refusal(verify(Caps::ALL, &code, &whole(&code), &pools));
    let explained = explain(Caps::ALL, &code, &whole(&code), &pools, refused).unwrap();
    let again = explained.refusal_of_chunk().unwrap();
    assert_eq!((again.chunk(), again.address()), (Some(0), Some(2)));
    assert_eq!(again.flaw(), refused.flaw());
    assert_eq!(explained.refusal(), Some(again));
    assert_eq!(
        (explained.refusal_outside(), explained.chunk()),
        (None, Some(0))
    );
    assert_eq!(again.visited(), explained.rows().len() as u64);
    let short = [(0, 0, 0), (1, 1, 0), (2, 0, 1)];
    let long = [(0, 0, 0), (1, 1, 0), (2, 0, 1), (7, 1, 1), (2, 1, 1)];
    let paths = [explained.path(), explained.other_path()];
    let paths = paths.map(|path| path.iter().map(counts).collect::<Vec<_>>());
    assert!(paths.contains(&short.to_vec()) && paths.contains(&long.to_vec()));
    assert!(explained
        .path()
        .iter()
        .all(|row| row.reached_from().is_none()));
    let text = explained.to_string();
    for part in [
        "refused: chunk 0: two paths meet at 2, one with 0 operands, the other with 1\n",
        "chunk 0 from 0 to 14, which declares 8 operands\n",
        "        2  1e0c000000             0         1  -         ITER_NEXT 12  <== here\n",
        "       13  13                not visited                 RETURN\n",
        "\none path from the entry:\n",
        "\nanother path from the entry:\n",
    ] {
        assert!(text.contains(part), "{part:?} isn't in\n{text}");
    }
}

/// As many handlers, armed one inside another, each of which catches right behind.
fn handlers(count: u32) -> Vec<u8> {
    let mut code = Vec::new();
    for handler in 1..=count {
        code.extend([0x02, 0x23]);
        code.extend((6 * handler).to_le_bytes());
    }
    code.extend([0x02, 0x13]);
    code
}

#[test]
fn bases_are_shared_and_the_innermost_first() {
    let code = [
        &[0x02, 0x23][..],
        &6u32.to_le_bytes(),
        &[0x02, 0x02, 0x23],
        &13u32.to_le_bytes(),
        &[0x12, 0x13],
    ]
    .concat();
    let pools = Pools::new();
    let explained = explain(Caps::ALL, &code, &whole(&code), &pools, 0).unwrap();
    assert!(explained.refusal().is_none(), "{explained}");
    let last = explained.rows().last().unwrap();
    assert_eq!((last.address(), last.reached_from()), (14, Some(13)));
    let bases: Vec<_> = explained.bases(last).collect();
    let base = |operands, iterators| Base {
        operands,
        iterators,
    };
    assert_eq!(bases, [base(3, 0), base(1, 0)]);
    assert_eq!(explained.bases(last).len(), 2);
    assert_eq!(explained.bases(&explained.rows()[0]).len(), 0);
    assert!(explained.to_string().contains("  3/0 1/0   RETURN\n"));
}

#[test]
fn more_bases_than_four_are_counted() {
    let code = handlers(7);
    let explained = explain(Caps::ALL, &code, &whole(&code), FlatPools::new(), 0).unwrap();
    let text = explained.to_string();
    assert!(text.contains("  7/0 6/0 5/0 4/0 and 3 more "), "{text}");
}

/// 20,000 handlers: a list of its own for each row would take 3 GB.
#[test]
fn an_explanation_grows_with_its_chunk() {
    let code = handlers(20_000);
    let chunks = [Chunk::new(0, code.len() as u32, u16::MAX)];
    let explained = explain(Caps::ALL, &code, &chunks, FlatPools::new(), 0).unwrap();
    let last = explained.rows().last().unwrap();
    assert_eq!(explained.bases(last).len(), 20_000);
    assert_eq!(explained.bases(last).count(), 20_000);
    assert!(explained.to_string().len() < 300 * code.len());
}

#[test]
fn a_chunk_that_passes_does_not_hide_a_refused_constant() {
    let pools = Pools::new().constant(Needs::Unknown).constant(Caps::ARRAY);
    let program = Program::new(bytes("0213"), vec![Chunk::new(0, 2, 1)], pools);
    let caps = Caps::ALL - Caps::ARRAY;
    let refused = refusal(program.verify(caps));
    let explained = program.explain(caps, 0).unwrap();
    assert_eq!(explained.refusal(), Some(&refused));
    assert_eq!(explained.refusal_outside(), Some(&refused));
    assert_eq!(explained.refusal_of_chunk(), None);
    assert_eq!(explained.rows().len(), 2);
    let first = "refused: a constant needs ARRAY, which the host doesn't have\n  \
                 constant 1 is the first that needs it\n";
    let text = explained.to_string();
    assert!(text.starts_with(first), "{text}");
    assert!(text.contains("\nchunk 0 passes by itself\n"), "{text}");
    let explained = program.explain(caps, refused).unwrap();
    assert_eq!(
        (explained.to_string().as_str(), explained.chunk()),
        (first, None)
    );
    assert!(explained.rows().is_empty() && explained.path().is_empty());
    let explained = program.explain(Caps::ALL, refused).unwrap();
    assert_eq!(
        explained.to_string(),
        "nothing outside the chunks is refused\n"
    );
}

#[test]
fn bad_code_is_shown_by_its_refusal() {
    let (code, pools) = (bytes("0216000013"), Pools::new().functions(1));
    let refused = refusal(verify(Caps::ALL, &code, &whole(&code), &pools));
    let explained = explain(Caps::ALL, &code, &whole(&code), &pools, refused).unwrap();
    let text =
        "refused: the instruction at 1 has index 0 of a chain, which doesn't exist\n        \
                1  160000         CHAIN 0  <== here\n";
    assert_eq!(explained.to_string(), text);
    // Whatever the host has, a chunk isn't explained for the bad code.
    for caps in [Caps::ALL, Caps::NONE] {
        let said = explain(caps, &code, &whole(&code), &pools, 0).map(|_| ());
        let Err(ExplainError::BadCode(again)) = said else {
            panic!("{said:?}");
        };
        assert_eq!((again.address(), again.flaw()), (Some(1), refused.flaw()));
    }
    let code = bytes("0213ff");
    let refused = refusal(verify(Caps::ALL, &code, &[], FlatPools::new()));
    let explained = explain(Caps::ALL, &code, &[], FlatPools::new(), refused).unwrap();
    let text = explained.to_string();
    assert!(
        text.ends_with("        2  ff             no instruction  <== here\n"),
        "{text}"
    );
}

#[test]
fn what_is_not_explained_is_an_error() {
    let code = bytes("0213");
    let said = explain(Caps::ALL, &code, &whole(&code), FlatPools::new(), 1);
    assert_eq!(said.map(|_| ()), Err(ExplainError::NoChunk(1)));
    let steps = [StepRow::from(grain::Step::Index { operand: 0 })];
    let uneven = FlatPools::new().chains(&[], &steps);
    let said = explain(Caps::ALL, &code, &whole(&code), uneven, 0).map(|_| ());
    assert_eq!(
        said,
        Err(ExplainError::NotFlat(uneven.check().unwrap_err()))
    );
}

#[test]
fn chunks_that_lie_wrong_have_no_path() {
    let (code, pools) = (bytes("0500000213"), Pools::new());
    for (entry, end) in [
        (1, 5),
        (0, 2),
        (0, 9),
        (5, 3),
        (9, 9),
        (0, 0),
        (u32::MAX, 0),
    ] {
        let chunks = [Chunk::new(entry, end, 8)];
        let explained = explain(Caps::ALL, &code, &chunks, &pools, 0).unwrap();
        assert!(explained.path().is_empty() && explained.rows().is_empty());
        assert!(explained.refusal().is_some());
        assert!(explained.to_string().starts_with("refused: chunk 0: "));
    }
}

/// The listing of code that names this.
fn listing_of(name: &str) -> String {
    let (code, pools) = (bytes("1900000b13"), Pools::new().name(name));
    let explained = explain(Caps::ALL, &code, &whole(&code), &pools, 0).unwrap();
    explained.to_string()
}

/// What ends a line, controls a terminal, or changes the direction of text or hides it.
fn hostile() -> impl Iterator<Item = char> {
    let controls = ('\0'..='\u{1f}').chain('\u{7f}'..='\u{9f}');
    let marks = [
        '\u{61c}', '\u{200e}', '\u{200f}', '\u{2028}', '\u{2029}', '\u{feff}', '\u{ad}',
    ];
    let bidi = ('\u{202a}'..='\u{202e}').chain('\u{2066}'..='\u{2069}');
    let hidden = ('\u{200b}'..='\u{200d}').chain('\u{e0020}'..='\u{e007f}');
    controls.chain(bidi).chain(marks).chain(hidden)
}

#[test]
fn names_are_escaped() {
    let lines = listing_of("x").lines().count();
    for each in hostile() {
        let text = listing_of(&format!("a{each}b"));
        assert_eq!(text.lines().count(), lines, "{text}");
        let is_shown = |c: char| c == each && c != '\n';
        assert!(!text.contains(is_shown), "{:?} is shown", each);
        assert!(
            text.contains(&format!("`a{}b`", each.escape_unicode())),
            "{text}"
        );
    }
    let forged = "a`\n  3  RETURN\nchunk 0 passes\n\u{1b}[8m";
    let text = listing_of(forged);
    assert_eq!(text.lines().count(), lines);
    assert!(text.contains("`a\\`\\u{a}  3  RETURN"), "{text}");
    assert!(listing_of("é\\a::b").contains(" `é\\\\a::b`\n"));
}

#[test]
fn long_names_are_cut() {
    let text = listing_of(&"é".repeat(100_000));
    assert!(
        text.contains(&format!(" `{}..`\n", "é".repeat(32))),
        "{text}"
    );
}

#[test]
fn what_is_not_reached_is_marked() {
    let (code, pools) = (bytes("130213"), Pools::new());
    let explained = explain(Caps::ALL, &code, &whole(&code), &pools, 0).unwrap();
    let wanted = "chunk 0 passes\n\
        chunk 0 from 0 to 3, which declares 8 operands\n  \
        address  bytes           operands iterators  bases     instruction\n        \
        0  13                     0         0  -         RETURN\n        \
        1  02                unreachable                 UNIT\n        \
        2  13                unreachable                 RETURN\n";
    assert_eq!(explained.to_string(), wanted);
    assert!(explained.refusal().is_none());
}
