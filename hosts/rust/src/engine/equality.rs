//! Whether values of scripts are equal, and their hashes.
use super::values::Value;
use std::hash::{Hash, Hasher};
use std::mem::discriminant;

/// Whether floats are equal as numbers, or both NaN.
fn are_equal_floats(left: f64, right: f64) -> bool {
    left == right || (left.is_nan() && right.is_nan())
}

/// The bits that stand for all floats that are equal to this one: both zeros are, and all NaN.
fn bits_of_equals(number: f64) -> u64 {
    if number.is_nan() {
        f64::NAN.to_bits()
    } else if number == 0.0 {
        0
    } else {
        number.to_bits()
    }
}

/// Values of different kinds are different: an integer is no float.
impl PartialEq for Value {
    fn eq(&self, other: &Value) -> bool {
        match (self, other) {
            (Value::Unit, Value::Unit) => true,
            (Value::Bool(left), Value::Bool(right)) => left == right,
            (Value::Int(left), Value::Int(right)) => left == right,
            (Value::Float(left), Value::Float(right)) => are_equal_floats(*left, *right),
            (Value::Char(left), Value::Char(right)) => left == right,
            (Value::Text(left), Value::Text(right)) => left == right,
            (
                Value::Range {
                    from,
                    to,
                    inclusive,
                },
                Value::Range {
                    from: other_from,
                    to: other_to,
                    inclusive: other_inclusive,
                },
            ) => (from, to, inclusive) == (other_from, other_to, other_inclusive),
            (Value::Array(left), Value::Array(right)) => left == right,
            (Value::Blob(left), Value::Blob(right)) => left == right,
            (Value::Map(left), Value::Map(right)) => left == right,
            (Value::Foreign(left), Value::Foreign(right)) => left == right,
            (
                Value::Function { name, bound },
                Value::Function {
                    name: other_name,
                    bound: other_bound,
                },
            ) => name == other_name && bound == other_bound,
            _ => false,
        }
    }
}

impl Eq for Value {}

impl Hash for Value {
    fn hash<H: Hasher>(&self, state: &mut H) {
        discriminant(self).hash(state);
        match self {
            Value::Unit => {}
            Value::Bool(value) => value.hash(state),
            Value::Int(number) => number.hash(state),
            Value::Float(number) => bits_of_equals(*number).hash(state),
            Value::Char(character) => character.hash(state),
            Value::Text(text) => text.hash(state),
            Value::Range {
                from,
                to,
                inclusive,
            } => (from, to, inclusive).hash(state),
            Value::Array(items) => items.hash(state),
            Value::Blob(bytes) => bytes.hash(state),
            Value::Map(entries) => entries.hash(state),
            Value::Foreign(foreign) => foreign.hash(state),
            Value::Function { name, bound } => (name, bound).hash(state),
        }
    }
}
