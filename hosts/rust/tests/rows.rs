//! Worked rows, by the words of the line program's cases.
mod common;

use common::{bytes, line_of};
use grain::{check_stream, check_table, count_instructions, instruction, site, stream_site};
use grain::{Caps, Chunk, Field, Kind, Site, TableFlaw};

/// The verdict on a case, by its words: capabilities, code and chunks.
fn verdict(case: &str) -> String {
    let mut words = case.split(' ');
    let caps = u16::from_str_radix(words.next().unwrap(), 16).unwrap();
    let caps = Caps::try_from(caps).unwrap();
    let code = bytes(words.next().unwrap().trim_matches('-'));
    let chunks: Vec<Chunk> = words
        .map(|word| {
            let numbers: Vec<u32> = word.split(':').map(|n| n.parse().unwrap()).collect();
            Chunk::new(numbers[0], numbers[1], numbers[2] as u16)
        })
        .collect();
    line_of(caps, &code, &chunks)
}

#[test]
fn programs_are_accepted() {
    for (case, wanted) in [
        ("7fff 0213 0:2:8", "accepted 1"),
        ("7fff 02020b0b0213 0:6:8", "accepted 2"),
        ("0000 -", "accepted"),
        ("7fff 2308000000022213220213 0:11:8", "accepted 1"),
        ("7fff 0223090000000b2213220b13 0:12:8", "accepted 1"),
        ("7fff 021d1e0d0000000b0c020000000213 0:15:8", "accepted 1"),
        ("7fff 130c63000000 0:6:8", "accepted 0"),
        ("0010 02410013 0:4:8", "accepted 1"),
        ("7fff 2502262713 0:5:8", "accepted 2"),
        ("7fff 0213 0:2:8 1:2:8", "accepted 1 0"),
        ("7fff 3a13 0:2:8", "accepted 1"),
        ("7fff 3b023c0213 0:5:8", "accepted 1"),
        ("7fff 020202360213 0:6:8", "accepted 3"),
        ("7fff 2307000000221302022213 0:11:8", "accepted 2"),
        ("7fff 0c00000000 0:5:0", "accepted 0"),
    ] {
        assert_eq!(verdict(case), wanted, "{case}");
    }
}

#[test]
fn programs_are_refused() {
    for (case, wanted) in [
        (
            "7fff 020e070000000213 0:8:8",
            "depth-conflict at=7 expected=1 found=0",
        ),
        (
            "7fff 020e08000000021d0213 0:10:8",
            "depth-conflict at=8 expected=0 found=0",
        ),
        ("7fff 1e0500000013 0:6:8", "iterator-underflow at=0"),
        (
            "7fff 050213 1:3:8",
            "jump-into-an-instruction at=1 target=1",
        ),
        ("7fff 050213 0:0:8", "falls-off-the-end"),
        ("7fff 0213 0:9:8", "chunk-out-of-range entry=0 end=9 len=2"),
        (
            "7fff 0c0300000013 0:6:8",
            "jump-into-an-instruction at=0 target=3",
        ),
        ("7fff 0c0600000013 0:6:8", "jump-out-of-range at=0 target=6"),
        (
            "7fff 02130c0000000013 0:2:8 2:8:8",
            "jump-out-of-range at=2 target=0",
        ),
        (
            "7fff 02020213 0:4:2",
            "stack-exceeds-declared needed=3 declared=2",
        ),
        ("7fff 0202360213 0:5:8", "underflow at=2 need=3 have=2"),
        ("0010 02290013 0:4:8", "missing-caps at=1 missing=0020"),
        ("7fff 252613 0:3:8", "underflow at=1 need=2 have=1"),
        ("7fff 2213 0:2:8", "handler-underflow at=0"),
        (
            "7fff 02230b0000000600002213220b13 0:14:8",
            "sinks-below-handler at=6 need=1 have=0",
        ),
        (
            "7fff 24080000000000132213 0:10:8",
            "bad-index at=0 index=0 what=name",
        ),
        (
            "7fff 4a000013 0:4:8",
            "bad-index at=0 index=0 what=custom syntax site",
        ),
        ("7fff 010700 0:3:8", "bad-index at=0 index=7 what=constant"),
        ("0000 3913 0:2:8", "missing-caps at=0 missing=0080"),
        (
            "7fff 023d00000213 0:6:8",
            "bad-index at=1 index=0 what=op-assignment",
        ),
        ("7fff 02 0:1:8", "falls-off-the-end"),
        ("7fff 0100 0:2:8", "undecodable at=0"),
        ("7fff 0213ff 0:2:8", "undecodable at=2"),
        (
            "7fff 050213 1:2:8",
            "jump-into-an-instruction at=1 target=1",
        ),
        ("7fff 0213 2:1:8", "chunk-out-of-range entry=2 end=1 len=2"),
    ] {
        assert_eq!(verdict(case), format!("refused {wanted}"), "{case}");
    }
}

#[test]
fn instructions_are_shown() {
    let code = bytes("0237010002030013");
    assert_eq!(count_instructions(&code), Ok(3));
    assert_eq!(count_instructions(&code[..3]), Err(1));
    assert_eq!(instruction(&code, 8), None);
    let found = instruction(&code, 1).unwrap();
    assert_eq!((found.tag, found.width), (0x37, 6));
    let wanted = [
        Field {
            kind: Kind::Name,
            value: 1,
        },
        Field {
            kind: Kind::Count,
            value: 2,
        },
        Field {
            kind: Kind::Name,
            value: 3,
        },
    ];
    assert!(found.fields().eq(wanted));
}

#[test]
fn sites_are_found() {
    let table = bytes("0400010503010b250702010900");
    assert_eq!(site(&table, 41), Some(Site { line: 9, column: 0 }));
    assert_eq!(site(&table, 1), None);
    assert_eq!(check_table(&table), Ok(()));
    assert_eq!(
        check_table(&bytes("02050101000101")),
        Err(TableFlaw::OutOfOrder { at: 5 })
    );
    let stream = bytes("040101010301020106");
    assert_eq!(stream_site(&stream, 3), Some(Site { line: 1, column: 6 }));
    assert_eq!(stream_site(&stream, 4), None);
    assert_eq!(check_stream(&stream), Ok(()));
    assert_eq!(check_stream(&stream[..8]), Err(TableFlaw::Truncated));
    assert_eq!(
        check_stream(&bytes("010101ff")),
        Err(TableFlaw::TrailingBytes { count: 1 })
    );
}
