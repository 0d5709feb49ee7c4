//! An explanation as a listing.
use crate::code::{InstructionRow, Instructions, Kind};
use crate::explained::{Explained, Row};
use crate::flat::FlatPools;
use crate::places::{ChainPart, ChainPlace};
use crate::refusal::Refusal;
use crate::text::Buffer;
use crate::{instruction, Chunk};
use std::fmt::{self, Write};

/// How many bases a line shows.
const MOST_BASES: usize = 4;

/// How many bytes of a name a line shows: what is hostile may name a long one at each instruction.
const MOST_NAME: usize = 64;

impl fmt::Display for Explained<'_> {
    fn fmt(&self, f: &mut fmt::Formatter<'_>) -> fmt::Result {
        if let Some(refusal) = self.refusal_outside() {
            self.write_outside(f, refusal)?;
        }
        let Some((index, chunk)) = self.chunk else {
            return match self.refusal_outside() {
                Some(_) => Ok(()),
                None => f.write_str("nothing outside the chunks is refused\n"),
            };
        };
        match (self.refusal_of_chunk(), self.refusal_outside()) {
            (Some(refusal), _) => writeln!(f, "refused: {refusal}")?,
            (None, Some(_)) => writeln!(f, "chunk {index} passes by itself")?,
            (None, None) => writeln!(f, "chunk {index} passes")?,
        }
        self.write_chunk(f, index, &chunk)?;
        let title = if self.other_path().is_empty() {
            "path from the entry:"
        } else {
            "one path from the entry:"
        };
        self.write_path(f, title, self.path())?;
        self.write_path(f, "another path from the entry:", self.other_path())
    }
}

impl Explained<'_> {
    /// What is refused outside the chunks, and where it is.
    fn write_outside(&self, f: &mut fmt::Formatter<'_>, refusal: &Refusal) -> fmt::Result {
        writeln!(f, "refused: {refusal}")?;
        if let Some(constant) = refusal.constant(self.pools) {
            writeln!(f, "  constant {constant} is the first that needs it")?;
        }
        if let Some(place) = refusal.chain_place(self.code, self.pools) {
            writeln!(f, "  {}", &*words(place))?;
        }
        let Some(address) = refusal.address() else {
            return Ok(());
        };
        let found = instruction(self.code, address);
        write!(
            f,
            "{address:>9}  {} ",
            Bytes::at(self.code, address, found.as_ref())
        )?;
        self.write_instruction(f, found.as_ref())?;
        f.write_str("  <== here\n")
    }

    /// All instructions of the chunk, also those that aren't reached.
    fn write_chunk(&self, f: &mut fmt::Formatter<'_>, index: usize, chunk: &Chunk) -> fmt::Result {
        let Chunk {
            entry,
            end,
            max_stack,
        } = *chunk;
        writeln!(
            f,
            "chunk {index} from {entry} to {end}, which declares {max_stack} operands"
        )?;
        f.write_str("  address  bytes           operands iterators  bases     instruction\n")?;
        let body = &self.code[..self.code.len().min(end as usize)];
        let here = self.refusal_of_chunk().and_then(Refusal::address);
        let mut rows = self.rows().iter().peekable();
        let mut left = Instructions::from(body, entry);
        for (address, found) in left.by_ref() {
            while rows.next_if(|row| row.address() < address).is_some() {}
            let row = rows.next_if(|row| row.address() == address);
            self.write_line(f, address, row, Some(&found), here == Some(address))?;
        }
        if left.address() as usize >= body.len() {
            return Ok(());
        }
        self.write_line(f, left.address(), None, None, false)
    }

    fn write_path(&self, f: &mut fmt::Formatter<'_>, title: &str, path: &[Row]) -> fmt::Result {
        let Some(last) = path.len().checked_sub(1) else {
            return Ok(());
        };
        writeln!(f, "{title}")?;
        for (place, row) in path.iter().enumerate() {
            let found = instruction(self.code, row.address());
            self.write_line(f, row.address(), Some(row), found.as_ref(), place == last)?;
        }
        Ok(())
    }

    /// A line: the address, the bytes, the state there, and the instruction.
    fn write_line(
        &self,
        f: &mut fmt::Formatter<'_>,
        address: u32,
        row: Option<&Row>,
        found: Option<&InstructionRow>,
        is_here: bool,
    ) -> fmt::Result {
        write!(f, "{address:>9}  {} ", Bytes::at(self.code, address, found))?;
        match row {
            Some(row) => write!(
                f,
                "{:>9} {:>9}  {:<9} ",
                row.operands(),
                row.iterators(),
                &*self.bases_text(row)?
            )?,
            None => write!(f, "   {:<28}", self.not_here())?,
        }
        self.write_instruction(f, found)?;
        f.write_str(if is_here { "  <== here\n" } else { "\n" })
    }

    /// How an instruction without a row is marked: the walk through a refused chunk ends at its flaw.
    fn not_here(&self) -> &'static str {
        if self.refusal_of_chunk().is_some() {
            "not visited"
        } else {
            "unreachable"
        }
    }

    /// The innermost bases, and how many more there are.
    fn bases_text(&self, row: &Row) -> Result<Buffer<128>, fmt::Error> {
        let mut text = Buffer::new();
        let mut bases = self.bases(row);
        if bases.len() == 0 {
            text.push("-");
        }
        for (place, base) in bases.by_ref().take(MOST_BASES).enumerate() {
            text.push(if place == 0 { "" } else { " " });
            write!(text, "{}/{}", base.operands, base.iterators)?;
        }
        if bases.len() > 0 {
            write!(text, " and {} more", bases.len())?;
        }
        Ok(text)
    }

    /// The instruction with the names that it names.
    fn write_instruction(
        &self,
        f: &mut fmt::Formatter<'_>,
        found: Option<&InstructionRow>,
    ) -> fmt::Result {
        let Some(found) = found else {
            return f.write_str("no instruction");
        };
        write!(f, "{found}")?;
        let names = found.fields().filter(|field| field.kind == Kind::Name);
        for field in names {
            write_name(f, &self.pools, field.value)?;
        }
        Ok(())
    }
}

fn words(place: ChainPlace) -> Buffer<64> {
    let (mut text, chain) = (Buffer::new(), place.chain);
    // A buffer takes all.
    let _ = match place.part {
        ChainPart::Root => write!(text, "it is the root of chain {chain}"),
        ChainPart::Step(step) => write!(text, "it is step {step} of chain {chain}"),
        ChainPart::Tail => write!(text, "it is the tail of chain {chain}"),
    };
    text
}

/// Bytes of the code, in hexadecimal and padded.
struct Bytes<'a>(&'a [u8]);

impl<'a> Bytes<'a> {
    /// Those of an instruction, or one byte if there is none.
    fn at(code: &'a [u8], address: u32, found: Option<&InstructionRow>) -> Bytes<'a> {
        let width = found.map_or(1, |found| usize::from(found.width));
        let rest = code.get(address as usize..).unwrap_or_default();
        Bytes(&rest[..rest.len().min(width)])
    }
}

impl fmt::Display for Bytes<'_> {
    fn fmt(&self, f: &mut fmt::Formatter<'_>) -> fmt::Result {
        let mut text = Buffer::<16>::new();
        for byte in self.0 {
            write!(text, "{byte:02x}")?;
        }
        write!(f, "{:<14}", &*text)
    }
}

/// A name, escaped; nothing if the name isn't there.
fn write_name(f: &mut fmt::Formatter<'_>, pools: &FlatPools<'_>, index: u32) -> fmt::Result {
    let Some(name) = pools.name(index) else {
        return Ok(());
    };
    let front = &name[..name.len().min(MOST_NAME)];
    let text = match std::str::from_utf8(front) {
        Ok(text) => text,
        Err(error) => std::str::from_utf8(&front[..error.valid_up_to()]).unwrap_or_default(),
    };
    f.write_str(" `")?;
    text.chars().try_for_each(|each| write_escaped(f, each))?;
    f.write_str(if text.len() < name.len() { "..`" } else { "`" })
}

/// A character of a name, so that no name can end its line or its quotes, or change how a terminal shows the rest.
fn write_escaped(f: &mut fmt::Formatter<'_>, each: char) -> fmt::Result {
    match each {
        '`' | '\\' => write!(f, "\\{each}"),
        ' '..='~' => f.write_char(each),
        _ if each.is_control() || is_invisible(each) => write!(f, "{}", each.escape_unicode()),
        _ => write!(f, "{}", each.escape_debug()),
    }
}

/// Marks that change the direction of text or show nothing, and separators of lines.
fn is_invisible(each: char) -> bool {
    matches!(
        each,
        '\u{ad}'
            | '\u{61c}'
            | '\u{180e}'
            | '\u{200b}'..='\u{200f}'
            | '\u{2028}'..='\u{202e}'
            | '\u{2060}'..='\u{206f}'
            | '\u{feff}'
            | '\u{fff9}'..='\u{fffb}'
            | '\u{e0000}'..='\u{e007f}'
    )
}
