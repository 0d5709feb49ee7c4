//! Values as rows of the library, and back.
use super::values::{Foreign, Value};
use crate::raw;
use std::collections::BTreeMap;

/// Rows and texts of values.
#[derive(Default)]
pub(crate) struct Rows {
    rows: Vec<raw::Value>,
    texts: Vec<u8>,
}

impl Rows {
    /// Those of these values, as the library takes them: until `self` is filled with others.
    pub(crate) fn filled(&mut self, values: &[Value]) -> raw::Values {
        self.rows.clear();
        self.texts.clear();
        self.add_all(values);
        raw::Values {
            rows: self.rows.as_ptr(),
            rows_len: self.rows.len(),
            texts: self.texts.as_ptr(),
            texts_len: self.texts.len(),
            // More values than a count can say are refused.
            count: u32::try_from(values.len()).unwrap_or(u32::MAX),
        }
    }

    fn push(&mut self, tag: u32, count: usize, number: i64) {
        // A longer list is no value: the library refuses the rows.
        let count = u32::try_from(count).unwrap_or(u32::MAX);
        self.rows.push(raw::Value { tag, count, number });
    }

    fn push_bytes(&mut self, tag: u32, bytes: &[u8]) {
        let from = self.texts.len() as i64;
        self.texts.extend_from_slice(bytes);
        self.push(tag, bytes.len(), from);
    }

    fn add_all(&mut self, values: &[Value]) {
        for value in values {
            self.add(value);
        }
    }

    fn add(&mut self, value: &Value) {
        match value {
            Value::Unit => self.push(raw::VALUE_UNIT, 0, 0),
            Value::Bool(false) => self.push(raw::VALUE_FALSE, 0, 0),
            Value::Bool(true) => self.push(raw::VALUE_TRUE, 0, 0),
            Value::Int(number) => self.push(raw::VALUE_INTEGER, 0, *number),
            Value::Float(number) => self.push(raw::VALUE_FLOAT, 0, number.to_bits() as i64),
            Value::Char(character) => {
                self.push(raw::VALUE_CHARACTER, 0, i64::from(u32::from(*character)));
            }
            Value::Text(text) => self.push_bytes(raw::VALUE_TEXT, text.as_bytes()),
            Value::Range {
                from,
                to,
                inclusive,
            } => {
                let tag = [raw::VALUE_RANGE, raw::VALUE_RANGE_INCLUSIVE][usize::from(*inclusive)];
                self.push(tag, 0, 0);
                self.push(raw::VALUE_INTEGER, 0, *from);
                self.push(raw::VALUE_INTEGER, 0, *to);
            }
            Value::Array(items) => {
                self.push(raw::VALUE_ARRAY, items.len(), 0);
                self.add_all(items);
            }
            Value::Blob(bytes) => self.push_bytes(raw::VALUE_BLOB, bytes),
            Value::Map(entries) => {
                self.push(raw::VALUE_MAP, entries.len(), 0);
                for (key, value) in entries {
                    self.push_bytes(raw::VALUE_TEXT, key.as_bytes());
                    self.add(value);
                }
            }
            Value::Foreign(Foreign { kind, number }) => {
                self.push(raw::VALUE_SHARED, 0, 0);
                self.push(raw::VALUE_RANGE, 0, 0);
                self.push(raw::VALUE_INTEGER, 0, *kind);
                self.push(raw::VALUE_INTEGER, 0, *number);
            }
            Value::Function { name, bound } => {
                self.push(raw::VALUE_FN_PTR, bound.len(), 0);
                self.push_bytes(raw::VALUE_TEXT, name.as_bytes());
                self.add_all(bound);
            }
        }
    }
}

/// Reads values off rows of the library, which are well formed. Nothing here relies on that.
pub(crate) struct Reader<'a> {
    rows: &'a [raw::Value],
    texts: &'a [u8],
}

impl<'a> Reader<'a> {
    pub(crate) fn new(rows: &'a [raw::Value], texts: &'a [u8]) -> Reader<'a> {
        Reader { rows, texts }
    }

    fn bytes(&self, row: &raw::Value) -> &'a [u8] {
        let from = usize::try_from(row.number).unwrap_or(usize::MAX);
        let end = from.saturating_add(row.count as usize);
        self.texts.get(from..end).unwrap_or_default()
    }

    fn text(&self, row: &raw::Value) -> String {
        String::from_utf8_lossy(self.bytes(row)).into_owned()
    }

    fn row(&mut self) -> Option<&'a raw::Value> {
        let (row, rest) = self.rows.split_first()?;
        self.rows = rest;
        Some(row)
    }

    fn number(&mut self) -> i64 {
        self.row().map_or(0, |row| row.number)
    }

    fn name(&mut self) -> String {
        self.row().map_or_else(String::new, |row| self.text(row))
    }

    /// Appends the next values.
    pub(crate) fn fill(&mut self, values: &mut Vec<Value>, count: usize) {
        let most = self.rows.len().min(count);
        values.extend((0..most).map(|_| self.value()));
    }

    fn values(&mut self, count: usize) -> Vec<Value> {
        let mut values = Vec::new();
        self.fill(&mut values, count);
        values
    }

    fn entries(&mut self, count: usize) -> BTreeMap<String, Value> {
        let most = self.rows.len().min(count);
        (0..most).map(|_| (self.name(), self.value())).collect()
    }

    fn value(&mut self) -> Value {
        let Some(row) = self.row() else {
            return Value::Unit;
        };
        let count = row.count as usize;
        match row.tag {
            raw::VALUE_FALSE => Value::Bool(false),
            raw::VALUE_TRUE => Value::Bool(true),
            raw::VALUE_INTEGER => Value::Int(row.number),
            raw::VALUE_FLOAT => Value::Float(raw::float_of(row)),
            raw::VALUE_CHARACTER => {
                let number = u32::try_from(row.number).unwrap_or_default();
                Value::Char(char::from_u32(number).unwrap_or_default())
            }
            raw::VALUE_TEXT => Value::Text(self.text(row)),
            raw::VALUE_RANGE | raw::VALUE_RANGE_INCLUSIVE => Value::Range {
                from: self.number(),
                to: self.number(),
                inclusive: row.tag == raw::VALUE_RANGE_INCLUSIVE,
            },
            raw::VALUE_ARRAY => Value::Array(self.values(count)),
            raw::VALUE_BLOB => Value::Blob(self.bytes(row).to_vec()),
            raw::VALUE_MAP => Value::Map(self.entries(count)),
            raw::VALUE_SHARED => {
                let _range = self.row();
                Value::Foreign(Foreign {
                    kind: self.number(),
                    number: self.number(),
                })
            }
            raw::VALUE_FN_PTR => Value::Function {
                name: self.name(),
                bound: self.values(count),
            },
            _ => Value::Unit,
        }
    }
}
