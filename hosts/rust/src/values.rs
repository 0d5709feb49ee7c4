//! The values of program files.
use crate::raw;
use std::str;

/// A value of a program file.
#[derive(Clone, Copy, Debug, PartialEq)]
#[non_exhaustive]
pub enum Value<'a> {
    /// No value.
    Unit,
    /// A truth value.
    Bool(bool),
    /// An integer.
    Integer(i64),
    /// A character.
    Char(char),
    /// A text.
    Text(&'a str),
    /// The integers from the first up to the second, without it.
    Range(i64, i64),
    /// The integers from the first up to the second, with it.
    RangeInclusive(i64, i64),
    /// Values in order.
    Array(Values<'a>),
    /// Bytes in order.
    Blob(&'a [u8]),
    /// An object map: its texts and their values, in the order of the texts.
    Map(Entries<'a>),
    /// A function by its name, with the first arguments of its calls.
    FnPtr(&'a str, Values<'a>),
    /// A value that several variables hold.
    Shared(Values<'a>),
    /// A floating-point number.
    Float(f64),
}

/// An operator of a program file.
#[derive(Clone, Copy, Debug, PartialEq, Eq, Hash)]
pub enum Operator<'a> {
    /// One of the language, by its number (RUNNING.md, "Operators").
    Number(u8),
    /// One that the host has added, by its text.
    Custom(&'a str),
}

/// How the operators of the language are written, by their numbers (RUNNING.md, "Operators").
const SYMBOLS: [&str; 39] = [
    "+", "+", "-", "-", "*", "/", "%", "**", "<<", ">>", "&", "|", "^", "&&", "||", "!", "??",
    "==", "!=", "<", "<=", ">", ">=", "in", "!in", "..", "..=", "=", "+=", "-=", "*=", "/=", "%=",
    "**=", "<<=", ">>=", "&=", "|=", "^=",
];

impl<'a> Operator<'a> {
    /// How it is written, such as `+`. The operators 1 and 3 are `+` and `-` before their only operand. It is empty for a number
    /// that no operator has.
    ///
    /// ```
    /// use grain::Operator;
    ///
    /// assert_eq!(Operator::Number(38).symbol(), "^=");
    /// assert_eq!(Operator::Custom("<>").symbol(), "<>");
    /// ```
    #[must_use]
    pub fn symbol(self) -> &'a str {
        match self {
            Operator::Number(number) => SYMBOLS.get(usize::from(number)).copied().unwrap_or(""),
            Operator::Custom(text) => text,
        }
    }

    pub(crate) fn of(row: &raw::Value, texts: &'a [u8]) -> Operator<'a> {
        match row.tag {
            raw::VALUE_OPERATOR => Operator::Number(row.number as u8),
            _ => Operator::Custom(text_of(row, texts)),
        }
    }
}

/// Values of a program file, one after another.
#[derive(Clone, Copy, Debug, PartialEq)]
pub struct Values<'a> {
    /// The rows of these values, and perhaps more.
    rows: &'a [raw::Value],
    texts: &'a [u8],
    /// How many values are left.
    left: usize,
}

impl<'a> Values<'a> {
    pub(crate) fn new(rows: &'a [raw::Value], texts: &'a [u8], left: usize) -> Values<'a> {
        Values { rows, texts, left }
    }

    /// The values after the first row.
    fn inside(&self, count: usize) -> Values<'a> {
        Values::new(self.rows.get(1..).unwrap_or_default(), self.texts, count)
    }

    /// The integers after the first row.
    fn pair(&self) -> (i64, i64) {
        let number = |index: usize| self.rows.get(index).map_or(0, |row| row.number);
        (number(1), number(2))
    }

    /// The first value, if there are rows.
    pub(crate) fn first(&self) -> Option<Value<'a>> {
        let row = self.rows.first()?;
        Some(match row.tag {
            raw::VALUE_FALSE => Value::Bool(false),
            raw::VALUE_TRUE => Value::Bool(true),
            raw::VALUE_INTEGER => Value::Integer(row.number),
            raw::VALUE_CHARACTER => {
                let number = u32::try_from(row.number).unwrap_or_default();
                Value::Char(char::from_u32(number).unwrap_or_default())
            }
            raw::VALUE_TEXT => Value::Text(text_of(row, self.texts)),
            raw::VALUE_RANGE => Value::Range(self.pair().0, self.pair().1),
            raw::VALUE_RANGE_INCLUSIVE => Value::RangeInclusive(self.pair().0, self.pair().1),
            raw::VALUE_ARRAY => Value::Array(self.inside(count_of(row))),
            raw::VALUE_BLOB => Value::Blob(bytes_of(row, self.texts)),
            raw::VALUE_MAP => Value::Map(Entries {
                values: self.inside(count_of(row).saturating_mul(2)),
            }),
            raw::VALUE_FN_PTR => {
                let name = self.rows.get(1).map_or("", |row| text_of(row, self.texts));
                let bound = Values::new(
                    self.rows.get(2..).unwrap_or_default(),
                    self.texts,
                    count_of(row),
                );
                Value::FnPtr(name, bound)
            }
            raw::VALUE_SHARED => Value::Shared(self.inside(1)),
            raw::VALUE_FLOAT => Value::Float(raw::float_of(row)),
            _ => Value::Unit,
        })
    }
}

impl<'a> Iterator for Values<'a> {
    type Item = Value<'a>;

    /// It takes time by the rows of the value.
    fn next(&mut self) -> Option<Value<'a>> {
        self.left = self.left.checked_sub(1)?;
        let value = self.first()?;
        let rows = self.rows;
        self.rows = rows.get(rows_of_first(rows)..).unwrap_or_default();
        Some(value)
    }

    fn size_hint(&self) -> (usize, Option<usize>) {
        (self.left, Some(self.left))
    }
}

impl ExactSizeIterator for Values<'_> {}

/// The entries of an object map: each text with its value, in the order of the texts.
///
/// ```
/// use grain::{ProgramFile, Value};
///
/// // The constant `#{a: 1}`.
/// let bytes = b"\0grn\x02\0\0\0\0\x02\x02\x13\0\x02\x01\0\0\x01\x0a\x01\x01a\x03\x02\0\0\0\0\0\0";
/// let file = ProgramFile::try_from(&bytes[..])?;
/// let Some(Value::Map(entries)) = file.constant(0) else { panic!() };
/// assert_eq!(entries.collect::<Vec<_>>(), [("a", Value::Integer(1))]);
/// # Ok::<(), grain::FileError>(())
/// ```
#[derive(Clone, Copy, Debug, PartialEq)]
pub struct Entries<'a> {
    /// A text and then a value, entry by entry.
    values: Values<'a>,
}

impl<'a> Iterator for Entries<'a> {
    type Item = (&'a str, Value<'a>);

    /// It takes time by the rows of the value.
    fn next(&mut self) -> Option<(&'a str, Value<'a>)> {
        let text = match self.values.next()? {
            Value::Text(text) => text,
            _ => "",
        };
        Some((text, self.values.next()?))
    }

    fn size_hint(&self) -> (usize, Option<usize>) {
        let left = self.values.left / 2;
        (left, Some(left))
    }
}

impl ExactSizeIterator for Entries<'_> {}

/// How many bytes, values or entries a row counts.
fn count_of(row: &raw::Value) -> usize {
    row.count as usize
}

/// How many values follow a row, as it says.
fn count_inside(row: &raw::Value) -> usize {
    match row.tag {
        raw::VALUE_RANGE | raw::VALUE_RANGE_INCLUSIVE => 2,
        raw::VALUE_ARRAY => count_of(row),
        raw::VALUE_MAP => count_of(row).saturating_mul(2),
        raw::VALUE_FN_PTR => count_of(row).saturating_add(1),
        raw::VALUE_SHARED => 1,
        _ => 0,
    }
}

/// How many rows the first value has.
fn rows_of_first(rows: &[raw::Value]) -> usize {
    let mut pending = 1usize;
    for (index, row) in rows.iter().enumerate() {
        pending = (pending - 1).saturating_add(count_inside(row));
        if pending == 0 {
            return index + 1;
        }
    }
    rows.len()
}

fn bytes_of<'a>(row: &raw::Value, texts: &'a [u8]) -> &'a [u8] {
    let from = usize::try_from(row.number).unwrap_or_default();
    texts
        .get(from..from.saturating_add(count_of(row)))
        .unwrap_or_default()
}

fn text_of<'a>(row: &raw::Value, texts: &'a [u8]) -> &'a str {
    str::from_utf8(bytes_of(row, texts)).unwrap_or_default()
}
