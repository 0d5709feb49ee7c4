//! Values of scripts as values of Rust.
use super::error::WrongType;
use std::collections::{BTreeMap, HashMap};
use std::fmt;
use std::hash::BuildHasher;
use std::ops::{Range, RangeInclusive};

/// A value of a script, as the host has it: its own copy.
///
/// Values of Rust become such values by [`From`], and such values become values of Rust by [`FromValue`] or [`TryFrom`]. Integers
/// and floats have 64 bits, `None` is [`Value::Unit`], and a `Vec<u8>` is a blob. [`Display`](fmt::Display) writes what a script prints of a value.
///
/// ```
/// use grain::engine::Value;
///
/// let value = Value::from(vec![Some(1), None]);
/// assert_eq!(value.to_string(), "[1, ()]");
/// assert_eq!(Vec::<Option<i64>>::try_from(value), Ok(vec![Some(1), None]));
/// ```
#[derive(Clone, Debug, Default)]
#[non_exhaustive]
pub enum Value {
    /// No value.
    #[default]
    Unit,
    /// A truth value.
    Bool(bool),
    /// An integer.
    Int(i64),
    /// A floating-point number. NaN is equal to itself, so that values can be keys; all others are compared as numbers.
    Float(f64),
    /// A character.
    Char(char),
    /// A text.
    Text(String),
    /// Integers from the first up to the second.
    Range {
        /// The first.
        from: i64,
        /// The last, or the one behind it.
        to: i64,
        /// Whether `to` is in it.
        inclusive: bool,
    },
    /// Values in order.
    Array(Vec<Value>),
    /// Bytes in order.
    Blob(Vec<u8>),
    /// An object map.
    Map(BTreeMap<String, Value>),
    /// A value of the host's own.
    Foreign(Foreign),
    /// A function of the script by its name, with the first arguments of its calls.
    Function {
        /// The name.
        name: String,
        /// The arguments that are bound.
        bound: Vec<Value>,
    },
}

/// A value of the host's own, such as an entity or an open file. Scripts pass it on and compare it, and can't make one: so one that
/// comes from a script is one that the host passed.
///
/// ```
/// use grain::engine::{Engine, Foreign};
///
/// const SOUND: i64 = 1;
/// let mut engine = Engine::new();
/// engine.register("sound", |number: i64| Foreign { kind: SOUND, number });
/// engine.register("play", |sound: Foreign| format!("sound {}", sound.number));
/// let mut state = engine.state(&engine.compile("fn f() { let a = sound(7); play(a) } f()")?)?;
/// assert_eq!(state.run::<String>()?, "sound 7");
/// // The function has ended, and no variable of the state has the value.
/// assert_eq!(state.dropped()?, [Foreign { kind: SOUND, number: 7 }]);
/// # Ok::<(), Box<dyn std::error::Error>>(())
/// ```
#[derive(Clone, Copy, Debug, PartialEq, Eq, Hash)]
pub struct Foreign {
    /// Of which kind it is. The host knows what it means.
    pub kind: i64,
    /// Which one of its kind it is.
    pub number: i64,
}

impl Value {
    /// What scripts call the type: what `type_of` gives them.
    #[must_use]
    pub fn type_name(&self) -> &'static str {
        match self {
            Value::Unit => "()",
            Value::Bool(_) => "bool",
            Value::Int(_) => "i64",
            Value::Float(_) => "f64",
            Value::Char(_) => "char",
            Value::Text(_) => "string",
            Value::Range { inclusive, .. } => ["range", "range="][usize::from(*inclusive)],
            Value::Array(_) => "array",
            Value::Blob(_) => "blob",
            Value::Map(_) => "map",
            Value::Function { .. } => "Fn",
            Value::Foreign(_) => "foreign",
        }
    }
}

/// As `print` of a script writes it: a text and a character as they are, unit as nothing, and the parts of others quoted.
impl fmt::Display for Value {
    fn fmt(&self, f: &mut fmt::Formatter<'_>) -> fmt::Result {
        match self {
            Value::Unit => Ok(()),
            Value::Text(text) => f.write_str(text),
            Value::Char(character) => write!(f, "{character}"),
            value => write_part(value, f),
        }
    }
}

/// Writes a value as `debug` of a script does, or `print` where it is a part of another one.
fn write_part(value: &Value, f: &mut fmt::Formatter<'_>) -> fmt::Result {
    match value {
        Value::Unit => f.write_str("()"),
        Value::Bool(value) => write!(f, "{value}"),
        Value::Int(number) => write!(f, "{number}"),
        Value::Float(number) => write_float(*number, f),
        Value::Char(character) => write!(f, "{character:?}"),
        Value::Text(text) => write!(f, "{text:?}"),
        Value::Range {
            from,
            to,
            inclusive,
        } => write!(f, "{from}{}{to}", ["..", "..="][usize::from(*inclusive)]),
        Value::Array(items) => write_parts("[", items.iter(), "]", f, write_part),
        Value::Blob(bytes) => {
            f.write_str("[")?;
            bytes.iter().try_for_each(|byte| write!(f, "{byte:02x}"))?;
            f.write_str("]")
        }
        Value::Map(entries) => write_parts("#{", entries.iter(), "}", f, |(key, value), f| {
            write!(f, "{key:?}: ")?;
            write_part(value, f)
        }),
        Value::Function { name, .. } => write!(f, "Fn({name})"),
        Value::Foreign(Foreign { kind, number }) => write!(f, "foreign({kind}, {number})"),
    }
}

/// Writes a float with the fewest digits that only it has, as a script does: a whole one ends with `.0`, very large and very small
/// ones have an exponent, and neither zero nor NaN has a sign.
fn write_float(number: f64, f: &mut fmt::Formatter<'_>) -> fmt::Result {
    let size = number.abs();
    if number.is_nan() {
        f.write_str("NaN")
    } else if size == 0.0 {
        f.write_str("0.0")
    } else if !(1e-7..=1e13).contains(&size) {
        write!(f, "{number:e}")
    } else if size.fract() == 0.0 {
        write!(f, "{number}.0")
    } else {
        write!(f, "{number}")
    }
}

/// Writes parts with commas between them.
fn write_parts<'a, T>(
    open: &str,
    parts: impl Iterator<Item = T>,
    close: &str,
    f: &mut fmt::Formatter<'a>,
    write: impl Fn(T, &mut fmt::Formatter<'a>) -> fmt::Result,
) -> fmt::Result {
    f.write_str(open)?;
    for (index, part) in parts.enumerate() {
        f.write_str(if index > 0 { ", " } else { "" })?;
        write(part, f)?;
    }
    f.write_str(close)
}

/// Types of Rust that values of scripts convert to.
pub trait FromValue: Sized {
    /// The value as this type.
    ///
    /// # Errors
    /// The value is of another type, or an integer that this one doesn't have.
    fn from_value(value: Value) -> Result<Self, WrongType>;
}

impl FromValue for Value {
    fn from_value(value: Value) -> Result<Value, WrongType> {
        Ok(value)
    }
}

/// That a value is of another type than the wanted one.
fn wrong<T>(wanted: &'static str, value: &Value) -> Result<T, WrongType> {
    Err(WrongType {
        wanted,
        found: value.type_name(),
    })
}

macro_rules! converts {
    ($($rust:ty, $name:literal, $variant:ident;)*) => { $(
        impl From<$rust> for Value {
            fn from(value: $rust) -> Value {
                Value::$variant(value)
            }
        }

        impl FromValue for $rust {
            fn from_value(value: Value) -> Result<$rust, WrongType> {
                match value {
                    Value::$variant(value) => Ok(value),
                    other => wrong($name, &other),
                }
            }
        }
    )* };
}

converts! {
    bool, "bool", Bool;
    i64, "i64", Int;
    f64, "f64", Float;
    char, "char", Char;
    String, "string", Text;
    Vec<u8>, "blob", Blob;
    Foreign, "foreign", Foreign;
}

macro_rules! integers {
    ($($rust:ident)*) => { $(
        impl FromValue for $rust {
            fn from_value(value: Value) -> Result<$rust, WrongType> {
                let number = i64::from_value(value)?;
                number.try_into().or(wrong(stringify!($rust), &Value::Int(number)))
            }
        }
    )* };
}

// A byte isn't one of these: a list of bytes is a blob.
integers! { i8 i16 i32 isize u16 u32 u64 usize }

macro_rules! wider {
    ($($rust:ident)*) => { $(
        impl From<$rust> for Value {
            fn from(number: $rust) -> Value {
                Value::Int(i64::from(number))
            }
        }
    )* };
}

wider! { i8 i16 i32 u16 u32 }

impl From<()> for Value {
    fn from((): ()) -> Value {
        Value::Unit
    }
}

impl FromValue for () {
    fn from_value(value: Value) -> Result<(), WrongType> {
        match value {
            Value::Unit => Ok(()),
            other => wrong("()", &other),
        }
    }
}

impl From<&str> for Value {
    fn from(text: &str) -> Value {
        Value::Text(text.into())
    }
}

impl From<&String> for Value {
    fn from(text: &String) -> Value {
        Value::Text(text.clone())
    }
}

/// `None` is unit.
impl<T: Into<Value>> From<Option<T>> for Value {
    fn from(value: Option<T>) -> Value {
        value.map_or(Value::Unit, Into::into)
    }
}

/// Unit is `None`.
impl<T: FromValue> FromValue for Option<T> {
    fn from_value(value: Value) -> Result<Option<T>, WrongType> {
        match value {
            Value::Unit => Ok(None),
            value => T::from_value(value).map(Some),
        }
    }
}

impl<T: Into<Value>> From<Vec<T>> for Value {
    fn from(items: Vec<T>) -> Value {
        Value::Array(items.into_iter().map(Into::into).collect())
    }
}

impl<T: Into<Value>, const N: usize> From<[T; N]> for Value {
    fn from(items: [T; N]) -> Value {
        Value::Array(items.map(Into::into).into())
    }
}

impl<T: FromValue> FromValue for Vec<T> {
    fn from_value(value: Value) -> Result<Vec<T>, WrongType> {
        match value {
            Value::Array(items) => items.into_iter().map(T::from_value).collect(),
            other => wrong("array", &other),
        }
    }
}

impl<T: Into<Value>> From<BTreeMap<String, T>> for Value {
    fn from(entries: BTreeMap<String, T>) -> Value {
        let entries = entries.into_iter();
        Value::Map(entries.map(|(key, value)| (key, value.into())).collect())
    }
}

impl<T: Into<Value>, S> From<HashMap<String, T, S>> for Value {
    fn from(entries: HashMap<String, T, S>) -> Value {
        let entries = entries.into_iter();
        Value::Map(entries.map(|(key, value)| (key, value.into())).collect())
    }
}

/// The entries of an object map, with their values as a type of Rust.
fn entries_of<T: FromValue, M: FromIterator<(String, T)>>(value: Value) -> Result<M, WrongType> {
    match value {
        Value::Map(entries) => {
            let entries = entries.into_iter();
            entries
                .map(|(key, value)| Ok((key, T::from_value(value)?)))
                .collect()
        }
        other => wrong("map", &other),
    }
}

impl<T: FromValue> FromValue for BTreeMap<String, T> {
    fn from_value(value: Value) -> Result<BTreeMap<String, T>, WrongType> {
        entries_of(value)
    }
}

impl<T: FromValue, S: BuildHasher + Default> FromValue for HashMap<String, T, S> {
    fn from_value(value: Value) -> Result<HashMap<String, T, S>, WrongType> {
        entries_of(value)
    }
}

impl From<Range<i64>> for Value {
    fn from(range: Range<i64>) -> Value {
        Value::Range {
            from: range.start,
            to: range.end,
            inclusive: false,
        }
    }
}

impl From<RangeInclusive<i64>> for Value {
    fn from(range: RangeInclusive<i64>) -> Value {
        let (from, to) = range.into_inner();
        Value::Range {
            from,
            to,
            inclusive: true,
        }
    }
}

/// A range without its last number, as `1..4`.
impl FromValue for Range<i64> {
    fn from_value(value: Value) -> Result<Range<i64>, WrongType> {
        match value {
            Value::Range {
                from,
                to,
                inclusive: false,
            } => Ok(from..to),
            other => wrong("range", &other),
        }
    }
}

/// A range with its last number, as `1..=3`.
impl FromValue for RangeInclusive<i64> {
    fn from_value(value: Value) -> Result<RangeInclusive<i64>, WrongType> {
        match value {
            Value::Range {
                from,
                to,
                inclusive: true,
            } => Ok(from..=to),
            other => wrong("range=", &other),
        }
    }
}

macro_rules! tries {
    ($([$($t:ident)?] $rust:ty;)*) => { $(
        /// As [`FromValue`].
        impl$(<$t: FromValue>)? TryFrom<Value> for $rust {
            type Error = WrongType;

            fn try_from(value: Value) -> Result<$rust, WrongType> {
                FromValue::from_value(value)
            }
        }
    )* };
}

tries! {
    [] ();
    [] bool;
    [] i8;
    [] i16;
    [] i32;
    [] i64;
    [] isize;
    [] u16;
    [] u32;
    [] u64;
    [] usize;
    [] f64;
    [] char;
    [] String;
    [] Range<i64>;
    [] RangeInclusive<i64>;
    [] Vec<u8>;
    [] Foreign;
    [T] Vec<T>;
    [T] BTreeMap<String, T>;
    [T] HashMap<String, T>;
}

/// Arguments of a call: a tuple of up to six, an array of one type, or a list of values.
pub trait IntoArguments {
    /// The values, in order.
    fn into_arguments(self) -> Vec<Value>;
}

impl IntoArguments for Vec<Value> {
    fn into_arguments(self) -> Vec<Value> {
        self
    }
}

impl IntoArguments for &[Value] {
    fn into_arguments(self) -> Vec<Value> {
        self.to_vec()
    }
}

impl<T: Into<Value>, const N: usize> IntoArguments for [T; N] {
    fn into_arguments(self) -> Vec<Value> {
        self.map(Into::into).into()
    }
}

macro_rules! tuples {
    ($(($($t:ident),*))*) => { $(
        impl<$($t: Into<Value>),*> IntoArguments for ($($t,)*) {
            #[allow(non_snake_case)]
            fn into_arguments(self) -> Vec<Value> {
                let ($($t,)*) = self;
                vec![$($t.into()),*]
            }
        }
    )* };
}

tuples! { () (A) (A, B) (A, B, C) (A, B, C, D) (A, B, C, D, E) (A, B, C, D, E, G) }
