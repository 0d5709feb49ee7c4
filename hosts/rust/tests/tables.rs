//! Address tables and streams of chain positions: worked rows, each change of one bit, and bytes that are neither.

use grain::{
    check_stream, check_table, site, stream_site, stream_sites, table_entries, Entry, ReadError,
    Site, TableFlaw,
};

/// 0 at 1:5, 3 at 1:11, 40 at 7:2 and 41 at 9:0.
const TABLE: &[u8] = &[4, 0, 1, 5, 3, 1, 11, 37, 7, 2, 1, 9, 0];

/// The positions of `a[i].b`: 1:1, 1:3, its bracket 1:2, and 1:6.
const STREAM: &[u8] = &[4, 1, 1, 1, 3, 1, 2, 1, 6];

/// An entry at the greatest address, and one behind that.
const HIGH: &[u8] = &[2, 0xff, 0xff, 0xff, 0xff, 0x0f, 1, 1, 1, 1, 1];

/// A count that is as great as may be, and nothing behind it.
const COUNT: &[u8] = &[0xff, 0xff, 0xff, 0xff, 0x0f];

/// A table, and the address, line and column of each of its entries.
type Entries<'a> = (&'a [u8], &'a [(u32, u32, u32)]);

fn place(line: u32, column: u32) -> Option<Site> {
    Some(Site { line, column })
}

#[test]
fn addresses_have_sites() {
    for (table, address, wanted) in [
        (TABLE, 0, place(1, 5)),
        (TABLE, 3, place(1, 11)),
        (TABLE, 40, place(7, 2)),
        (TABLE, 41, place(9, 0)),
        (TABLE, 1, None),
        (TABLE, 99, None),
        (&[], 0, None),
        (&[1, 0, 0xf0, 0xa2, 0x04, 1], 0, place(70000, 1)),
        (&[1, 0, 0, 1], 0, None),
        (&[2, 0, 1, 1, 0, 2, 2], 0, place(1, 1)),
        (&[4, 0, 1, 5], 0, place(1, 5)),
        (&[4, 0, 1, 5], 3, None),
        (HIGH, u32::MAX, place(1, 1)),
        (HIGH, 0, None),
        (COUNT, 0, None),
    ] {
        assert_eq!(site(table, address), wanted, "{table:?} {address}");
    }
}

#[test]
fn tables_have_entries() {
    let rows: [Entries<'_>; 9] = [
        (TABLE, &[(0, 1, 5), (3, 1, 11), (40, 7, 2), (41, 9, 0)]),
        (&[4, 0, 1, 5, 3], &[(0, 1, 5)]),
        (&[2, 0, 1, 1, 0, 2, 2], &[(0, 1, 1), (0, 2, 2)]),
        (&[], &[]),
        (&[0, 0, 1, 5], &[]),
        (&[1, 0, 1, 5, 3, 1, 11], &[(0, 1, 5)]),
        (&[2, 0, 0, 1, 7, 1, 1], &[(0, 0, 1), (7, 1, 1)]),
        (HIGH, &[(u32::MAX, 1, 1)]),
        (&[0x80, 0x80, 0x80, 0x80, 0x10, 0, 1, 5], &[]),
    ];
    for (table, wanted) in rows {
        let entry = |(address, line, column)| Entry {
            address,
            site: Site { line, column },
        };
        let wanted: Vec<Entry> = wanted.iter().copied().map(entry).collect();
        assert_eq!(table_entries(table), Ok(wanted), "{table:?}");
    }
}

#[test]
fn tables_are_checked() {
    let longer = [TABLE, &[0]].concat();
    for (table, wanted) in [
        (TABLE, Ok(())),
        (&[0], Ok(())),
        (&longer, Err(TableFlaw::TrailingBytes { count: 1 })),
        (&[2, 0, 1, 1, 0, 1, 1], Err(TableFlaw::OutOfOrder { at: 0 })),
        (COUNT, Err(TableFlaw::Truncated)),
        (HIGH, Err(TableFlaw::Overflow)),
        (&[0x80, 0x80, 0x80, 0x80, 0x10], Err(TableFlaw::Overflow)),
    ] {
        assert_eq!(check_table(table), wanted, "{table:?}");
    }
    for end in 0..TABLE.len() {
        assert_eq!(check_table(&TABLE[..end]), Err(TableFlaw::Truncated));
    }
}

#[test]
fn slots_have_sites() {
    for (stream, slot, wanted) in [
        (STREAM, 0, place(1, 1)),
        (STREAM, 1, place(1, 3)),
        (STREAM, 2, place(1, 2)),
        (STREAM, 3, place(1, 6)),
        (STREAM, 4, None),
        (STREAM, 99, None),
        (&[2, 0, 7, 9, 0], 0, None),
        (&[2, 0, 7, 9, 0], 1, place(9, 0)),
        (&[3, 1, 1, 2, 2, 0x80], 1, place(2, 2)),
        (&[3, 1, 1, 2, 2, 0x80], 2, None),
        (&[5, 1, 1, 1, 3, 1, 2, 1, 6, 9, 9], 4, place(9, 9)),
        (&[0], 0, None),
        (&[], 0, None),
    ] {
        assert_eq!(stream_site(stream, slot), wanted, "{stream:?} {slot}");
    }
}

#[test]
fn streams_are_checked() {
    for (stream, wanted) in [
        (STREAM, Ok(())),
        (&[0], Ok(())),
        (&[3, 1, 1, 2, 2, 0x80], Err(TableFlaw::Truncated)),
        (&[0, 0, 0], Err(TableFlaw::TrailingBytes { count: 2 })),
        (
            &[1, 1, 0x80, 0x80, 0x80, 0x80, 0x10],
            Err(TableFlaw::Overflow),
        ),
    ] {
        assert_eq!(check_stream(stream), wanted, "{stream:?}");
    }
    for end in 0..STREAM.len() {
        assert_eq!(check_stream(&STREAM[..end]), Err(TableFlaw::Truncated));
    }
}

#[test]
fn streams_are_read_or_refused() {
    let sites = vec![place(1, 1), place(1, 3), place(1, 2), place(1, 6)];
    assert_eq!(stream_sites(STREAM), Ok(sites));
    let greatest = [COUNT, &[1, 1]].concat();
    for (stream, flaw) in [
        (COUNT, TableFlaw::Truncated),
        (&greatest, TableFlaw::Truncated),
        (&[0, 5], TableFlaw::TrailingBytes { count: 1 }),
    ] {
        assert_eq!(stream_sites(stream), Err(ReadError::Flaw(flaw)));
    }
}

/// What the calls said, over all bytes that they were given.
#[derive(Debug, Default, PartialEq)]
struct Said {
    /// How often the bytes are a table.
    tables: usize,
    /// How often an address from 0 to 63 has a site.
    sites: usize,
    /// How often the bytes are a stream.
    streams: usize,
    /// How often a slot from 0 to 63 has a site.
    slots: usize,
}

impl Said {
    /// Counts what is said of these bytes.
    fn count(&mut self, bytes: &[u8]) {
        self.tables += usize::from(check_table(bytes).is_ok());
        self.streams += usize::from(check_stream(bytes).is_ok());
        let sites: Vec<Site> = (0..64).filter_map(|at| site(bytes, at)).collect();
        let slots: Vec<Site> = (0..64).filter_map(|at| stream_site(bytes, at)).collect();
        assert!(sites.iter().chain(&slots).all(|site| site.line != 0));
        self.sites += sites.len();
        self.slots += slots.len();
    }

    /// What is said of the bytes with one bit changed, for each bit.
    fn of_changes(bytes: &[u8]) -> Said {
        let mut said = Said::default();
        for bit in 0..8 * bytes.len() {
            let mut changed = bytes.to_vec();
            changed[bit / 8] ^= 1 << (bit % 8);
            said.count(&changed);
            if check_table(&changed).is_ok() && bytes == TABLE {
                assert_eq!(table_entries(&changed).map(|found| found.len()), Ok(4));
            }
        }
        said
    }
}

/// The numbers were counted by another reader of the two formats.
#[test]
fn each_change_of_one_bit_is_answered() {
    let of_table = Said {
        tables: 83,
        sites: 375,
        streams: 1,
        slots: 328,
    };
    assert_eq!(Said::of_changes(TABLE), of_table);
    let of_stream = Said {
        tables: 0,
        sites: 134,
        streams: 56,
        slots: 271,
    };
    assert_eq!(Said::of_changes(STREAM), of_stream);
}

#[test]
fn bytes_that_begin_with_no_count_have_nothing() {
    for (bytes, flaw) in [
        (&[][..], TableFlaw::Truncated),
        (&[0xff], TableFlaw::Truncated),
        (&[0xff; 32], TableFlaw::Overflow),
        (&[0x80; 12], TableFlaw::Overflow),
    ] {
        assert_eq!(check_table(bytes), Err(flaw));
        assert_eq!(check_stream(bytes), Err(flaw));
        let mut said = Said::default();
        said.count(bytes);
        assert_eq!(said, Said::default());
    }
}
