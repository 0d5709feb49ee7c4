//! Address tables, and streams of the positions of chains.
use crate::raw;
use crate::text::Buffer;
use std::collections::TryReserveError;
use std::fmt::{self, Write};

/// A place in a source text. It prints as `line:column`.
#[repr(C)]
#[derive(Clone, Copy, Debug, Default, PartialEq, Eq, Hash)]
pub struct Site {
    /// The line, or 0 if none is known.
    pub line: u32,
    /// The column, or 0 for the start of the line.
    pub column: u32,
}

impl Site {
    /// The site, or `None` if its line is 0.
    #[must_use]
    pub fn known(self) -> Option<Site> {
        (self.line != 0).then_some(self)
    }
}

/// It prints as `line:column`.
impl fmt::Display for Site {
    fn fmt(&self, f: &mut fmt::Formatter<'_>) -> fmt::Result {
        let mut text = Buffer::<24>::new();
        write!(text, "{}:{}", self.line, self.column)?;
        f.pad(&text)
    }
}

/// An entry of an address table.
#[repr(C)]
#[derive(Clone, Copy, Debug, Default, PartialEq, Eq, Hash)]
pub struct Entry {
    /// The address of an instruction.
    pub address: u32,
    /// Its place in the source text; line 0 if none is known.
    pub site: Site,
}

/// The first thing that is wrong with an address table or a stream.
#[derive(Clone, Copy, Debug, PartialEq, Eq, Hash)]
#[non_exhaustive]
pub enum TableFlaw {
    /// The bytes end before or inside a number.
    Truncated,
    /// A number or an address is above 4294967295.
    Overflow,
    /// Two entries in a row have one address.
    OutOfOrder {
        /// The address.
        at: u64,
    },
    /// Bytes follow the last entry or slot.
    TrailingBytes {
        /// How many they are.
        count: u64,
    },
    /// A number that this package doesn't know.
    Unknown(
        /// Its number in `grain.h`.
        u32,
    ),
}

impl fmt::Display for TableFlaw {
    fn fmt(&self, f: &mut fmt::Formatter<'_>) -> fmt::Result {
        let mut text = Buffer::<80>::new();
        match self {
            TableFlaw::Truncated => text.push("the bytes end too early"),
            TableFlaw::Overflow => text.push("a number is above 4294967295"),
            TableFlaw::OutOfOrder { at } => write!(text, "the address {at} is repeated")?,
            TableFlaw::TrailingBytes { count } => write!(text, "{count} bytes too many")?,
            TableFlaw::Unknown(flaw) => write!(text, "flaw {flaw}, which is unknown here")?,
        }
        f.pad(&text)
    }
}

impl std::error::Error for TableFlaw {}

/// Why entries or sites aren't read.
#[derive(Clone, Copy, Debug, PartialEq, Eq, Hash)]
#[non_exhaustive]
pub enum ReadError {
    /// The bytes aren't a stream.
    Flaw(TableFlaw),
    /// The allocator refused.
    OutOfMemory,
}

impl fmt::Display for ReadError {
    fn fmt(&self, f: &mut fmt::Formatter<'_>) -> fmt::Result {
        match self {
            ReadError::Flaw(flaw) => write!(f, "the bytes are not a stream: {flaw}"),
            ReadError::OutOfMemory => f.write_str("out of memory"),
        }
    }
}

impl std::error::Error for ReadError {}

impl From<TableFlaw> for ReadError {
    fn from(flaw: TableFlaw) -> ReadError {
        ReadError::Flaw(flaw)
    }
}

impl From<TryReserveError> for ReadError {
    fn from(_: TryReserveError) -> ReadError {
        ReadError::OutOfMemory
    }
}

fn flaw_of(flaw: u32, named: u64) -> Result<(), TableFlaw> {
    match flaw {
        0 => Ok(()),
        1 => Err(TableFlaw::Truncated),
        2 => Err(TableFlaw::Overflow),
        3 => Err(TableFlaw::OutOfOrder { at: named }),
        4 => Err(TableFlaw::TrailingBytes { count: named }),
        flaw => Err(TableFlaw::Unknown(flaw)),
    }
}

/// The site of an address in an address table: that of the first entry with this address, before the first damage. `None` if
/// there is no such entry, or its line is 0.
///
/// ```
/// use grain::{site, Site};
///
/// let table = [2, 0, 1, 5, 3, 2, 1]; // 0 at 1:5, 3 at 2:1
/// assert_eq!(site(&table, 3), Some(Site { line: 2, column: 1 }));
/// assert_eq!(site(&table, 2), None);
/// ```
#[must_use]
pub fn site(table: &[u8], address: u32) -> Option<Site> {
    let mut place = Site::default();
    // SAFETY: the table is one slice, and the place lives for the call.
    let found = unsafe { raw::grain_table_place(table.as_ptr(), table.len(), address, &mut place) };
    found.then_some(place)
}

/// Tests that bytes are an address table.
///
/// # Errors
/// The first thing that is wrong.
pub fn check_table(table: &[u8]) -> Result<(), TableFlaw> {
    let mut named = 0;
    // SAFETY: the table is one slice, and `named` lives for the call.
    let flaw = unsafe { raw::grain_check_table(table.as_ptr(), table.len(), &mut named) };
    flaw_of(flaw, named)
}

/// The site that a stream records for a slot.
#[must_use]
pub fn stream_site(stream: &[u8], slot: u32) -> Option<Site> {
    let mut place = Site::default();
    // SAFETY: the stream is one slice, and the place lives for the call.
    let found = unsafe { raw::grain_stream_place(stream.as_ptr(), stream.len(), slot, &mut place) };
    found.then_some(place)
}

/// Tests that bytes are a stream.
///
/// # Errors
/// The first thing that is wrong.
pub fn check_stream(stream: &[u8]) -> Result<(), TableFlaw> {
    let mut named = 0;
    // SAFETY: the stream is one slice, and `named` lives for the call.
    let flaw = unsafe { raw::grain_check_stream(stream.as_ptr(), stream.len(), &mut named) };
    flaw_of(flaw, named)
}

/// Writes the entries of an address table in order to the first places of a list of the caller's, as many as there is room for, and
/// returns how many there are: those before the first damage ([`check_table`] says whether there is some). It takes no memory.
#[must_use]
pub fn table_entries_into(table: &[u8], entries: &mut [Entry]) -> usize {
    // SAFETY: each pointer and length are those of one slice that is borrowed for the call.
    unsafe {
        raw::grain_table_entries(
            table.as_ptr(),
            table.len(),
            entries.as_mut_ptr(),
            entries.len(),
        )
    }
}

/// The entries of an address table in order: those before the first damage ([`check_table`] says whether there is some).
///
/// # Errors
/// The allocator refused. It takes four times as much as the table has.
pub fn table_entries(table: &[u8]) -> Result<Vec<Entry>, TryReserveError> {
    // An entry is three numbers, each a byte at least.
    let most = table.len() / 3;
    let mut entries = Vec::new();
    entries.try_reserve_exact(most)?;
    entries.resize(most, Entry::default());
    let count = table_entries_into(table, &mut entries);
    entries.truncate(count);
    Ok(entries)
}

/// Writes the sites of a stream, slot by slot, to the first places of a list of the caller's, as many as there is room for, and
/// returns how many there are. Line 0 says that a slot has none. It takes no memory.
///
/// # Errors
/// The bytes aren't a stream: the first thing that is wrong; then nothing is written.
pub fn stream_sites_into(stream: &[u8], sites: &mut [Site]) -> Result<usize, TableFlaw> {
    let mut count = 0;
    // SAFETY: each pointer and length are those of one slice that is borrowed for the call, and `count` lives for it.
    let is_stream = unsafe {
        raw::grain_stream_places(
            stream.as_ptr(),
            stream.len(),
            sites.as_mut_ptr(),
            sites.len(),
            &mut count,
        )
    };
    if is_stream {
        Ok(count)
    } else {
        check_stream(stream).map(|()| 0)
    }
}

/// The sites of a stream, slot by slot.
///
/// ```
/// use grain::{stream_sites, Site};
///
/// let stream = [2, 1, 5, 0, 0]; // 1:5, and a slot without a site
/// assert_eq!(stream_sites(&stream)?, [Some(Site { line: 1, column: 5 }), None]);
/// # Ok::<(), grain::ReadError>(())
/// ```
///
/// # Errors
/// The bytes aren't a stream; or the allocator refused. It takes ten times as much as the stream has.
pub fn stream_sites(stream: &[u8]) -> Result<Vec<Option<Site>>, ReadError> {
    // A slot is two numbers, each a byte at least.
    let most = stream.len() / 2;
    let (mut sites, mut known) = (Vec::new(), Vec::new());
    sites.try_reserve_exact(most)?;
    sites.resize(most, Site::default());
    let count = stream_sites_into(stream, &mut sites)?;
    known.try_reserve_exact(count)?;
    known.extend(sites.iter().take(count).map(|site| site.known()));
    Ok(known)
}
