//! Generated programs, judged by the library and by the line program alike; and what the line program answers to long lines.
//!
//! `hosts/build` (in the repository) names the line program by GRAIN_CHECK, and runs these tests, which are left out elsewhere.
mod common;

use common::chance::Chance;
use common::line_of;
use grain::{Caps, Chunk};
use std::collections::BTreeSet;
use std::fmt::Write as _;
use std::io::Write as _;
use std::process::{Command, Stdio};

const PROGRAMS: usize = 100_000;

/// Instructions without an index, by their bytes; those that end in four zeros name a target.
const PLAIN: &[&[u8]] = &[
    &[0x02],
    &[0x02],
    &[0x02],
    &[0x03],
    &[0x04],
    &[0x0b],
    &[0x0b],
    &[0x05, 1, 0],
    &[0x06, 2, 0],
    &[0x11],
    &[0x1d],
    &[0x1f],
    &[0x22],
    &[0x25],
    &[0x26],
    &[0x27],
    &[0x28],
    &[0x29, 1],
    &[0x2a, 0],
    &[0x30],
    &[0x31],
    &[0x34, 0, 0],
    &[0x36, 1],
    &[0x39],
    &[0x3a],
    &[0x3b],
    &[0x3c],
    &[0x41, 0],
    &[0x13],
    &[0x1c],
];
const LEADING: &[u8] = &[0x0c, 0x0d, 0x0e, 0x1e, 0x23, 0x42];
const INDEXED: &[&[u8]] = &[
    &[0x01, 0, 0],
    &[0x16, 1, 0],
    &[0x18, 0, 0],
    &[0x2f, 3, 0],
    &[0x4a, 0, 0],
    &[0x3d, 0, 0],
];

/// Code, and where its instructions begin, its end too.
fn code(chance: &mut Chance) -> (Vec<u8>, Vec<usize>) {
    let (mut code, mut starts, mut targets) = (Vec::new(), vec![], vec![]);
    let is_odd = chance.below(20) == 0;
    for _ in 0..chance.below(14) {
        starts.push(code.len());
        match chance.below(40) {
            0..=8 => {
                code.push(chance.one_of(LEADING));
                targets.push(code.len());
                code.extend([0; 4]);
            }
            9 if is_odd => code.extend(chance.one_of(INDEXED)),
            10 if is_odd => code.push(chance.next() as u8),
            _ => code.extend(chance.one_of(PLAIN)),
        }
    }
    starts.push(code.len());
    code.push(0x13);
    starts.push(code.len());
    for at in targets {
        let target = if chance.below(30) == 0 {
            chance.below(code.len() + 2)
        } else {
            chance.one_of(&starts)
        };
        code[at..at + 4].copy_from_slice(&(target as u32).to_le_bytes());
    }
    (code, starts)
}

fn chunks(chance: &mut Chance, starts: &[usize], len: usize) -> Vec<Chunk> {
    (0..chance.below(4))
        .map(|_| {
            let is_whole = chance.below(3) > 0;
            let entry = if is_whole { 0 } else { chance.one_of(starts) };
            let end = if is_whole { len } else { chance.one_of(starts) };
            let odd = usize::from(chance.below(25) == 0);
            let max_stack = chance.below(6) as u16;
            Chunk::new((entry + odd) as u32, end as u32, max_stack)
        })
        .collect()
}

/// A case of the line program, and what the library says of it.
fn case(chance: &mut Chance) -> (String, String) {
    let (code, starts) = code(chance);
    let chunks = chunks(chance, &starts, code.len());
    let caps = if chance.below(4) == 0 {
        Caps::from_bits_truncate(chance.next() as u16)
    } else {
        Caps::ALL
    };
    let mut line = format!("verify {caps:04x} ");
    for byte in &code {
        write!(line, "{byte:02x}").unwrap();
    }
    for chunk in &chunks {
        write!(line, " {}:{}:{}", chunk.entry, chunk.end, chunk.max_stack).unwrap();
    }
    (line, line_of(caps, &code, &chunks))
}

/// What the line program writes for these lines, of which none is bad.
fn answered(lines: String) -> String {
    let program = std::env::var_os("GRAIN_CHECK").expect("GRAIN_CHECK names the line program");
    let mut child = Command::new(program)
        .stdin(Stdio::piped())
        .stdout(Stdio::piped())
        .spawn()
        .unwrap();
    let mut input = child.stdin.take().unwrap();
    let writing = std::thread::spawn(move || input.write_all(lines.as_bytes()).unwrap());
    let output = child.wait_with_output().unwrap();
    writing.join().unwrap();
    assert!(output.status.success());
    String::from_utf8(output.stdout).unwrap()
}

#[test]
#[ignore = "compares with the line program, which GRAIN_CHECK must name"]
fn generated_programs_are_judged_alike() {
    let mut chance = Chance(1);
    let (lines, said): (Vec<_>, Vec<_>) = (0..PROGRAMS).map(|_| case(&mut chance)).unzip();
    let verdicts = answered(lines.join("\n"));
    assert_eq!(verdicts.lines().count(), PROGRAMS);
    for ((line, said), verdict) in lines.iter().zip(&said).zip(verdicts.lines()) {
        assert_eq!(said, verdict, "{line}");
    }
    let accepted = said
        .iter()
        .filter(|said| said.starts_with("accepted"))
        .count();
    let refusals = said.iter().filter_map(|said| said.strip_prefix("refused "));
    let words: BTreeSet<_> = refusals
        .filter_map(|refusal| refusal.split(' ').next())
        .collect();
    println!("{accepted} of {PROGRAMS} were accepted, and the others refused by {words:?}");
    assert!(words.len() >= 9, "{words:?}");
    assert!(
        (PROGRAMS / 10..PROGRAMS * 9 / 10).contains(&accepted),
        "{accepted} were accepted"
    );
}

/// The line program reads into a buffer, which the first three lines end about.
#[test]
#[ignore = "runs the line program, which GRAIN_CHECK must name"]
fn long_code_is_counted() {
    for count in [32764, 32765, 32766, 100_000] {
        let lines = format!("code {}\ncode 0213\n", "02".repeat(count));
        assert_eq!(answered(lines), format!("whole {count}\nwhole 2\n"));
    }
}

/// How many times a branch stands in the code that is verified.
const BRANCHES: usize = 6000;

/// `verify` with code of that many branches, each to the next, and then these bytes.
fn long_verify(tail: &str) -> String {
    let mut line = String::from("verify 7fff ");
    for branch in 1..=BRANCHES {
        let [first, second, third, fourth] = (6 * branch as u32).to_le_bytes();
        write!(line, "020e{first:02x}{second:02x}{third:02x}{fourth:02x}").unwrap();
    }
    let end = 6 * BRANCHES + tail.len() / 2;
    line + tail + &format!(" 0:{end}:1")
}

#[test]
#[ignore = "runs the line program, which GRAIN_CHECK must name"]
fn many_branches_are_verified() {
    for (tail, verdict) in [
        ("0213", "accepted 1"),
        ("02", "refused falls-off-the-end"),
        ("0b13", "refused underflow at=36000 need=1 have=0"),
        ("0c00000000", "accepted 1"),
        (
            "0c0100000013",
            "refused depth-conflict at=1 expected=1 found=0",
        ),
        (
            "0c0200000013",
            "refused jump-into-an-instruction at=36000 target=2",
        ),
        ("ff", "refused undecodable at=36000"),
    ] {
        assert_eq!(answered(long_verify(tail)), format!("{verdict}\n"));
    }
}

#[test]
#[ignore = "runs the line program, which GRAIN_CHECK must name"]
fn more_operands_than_can_be_declared_are_counted() {
    let line = format!("verify 7fff {}13 0:65537:65535", "02".repeat(65536));
    assert_eq!(
        answered(line),
        "refused stack-exceeds-declared needed=65536 declared=65535\n"
    );
}

/// 2000 chunks, and one that ends past the code.
#[test]
#[ignore = "runs the line program, which GRAIN_CHECK must name"]
fn many_chunks_are_verified() {
    let line = format!("verify 7fff 0213{} 0:9:8", " 0:2:8".repeat(2000));
    assert_eq!(
        answered(line),
        "refused chunk-out-of-range entry=0 end=9 len=2\n"
    );
}

/// An address table of 1200 entries, at the addresses 0 to 1199.
#[test]
#[ignore = "runs the line program, which GRAIN_CHECK must name"]
fn sites_are_found_in_a_large_table() {
    for (address, verdict) in [
        ("0", "site 1:2"),
        ("1000", "site 1:3"),
        ("1199", "site 7:4"),
        ("1200", "none"),
    ] {
        let table = format!("b009000102{}010704", "010103".repeat(1198));
        let line = format!("site {table} {address}");
        assert_eq!(answered(line), format!("{verdict}\n"));
    }
}
