//! Values as a host sees them.

use crate::Kind;
use std::fmt;

/// A value; `Unknown` belongs to every kind.
#[derive(Clone, Copy, Debug, PartialEq)]
pub enum Value {
    /// Not known.
    Unknown,
    /// A truth.
    Bool(bool),
    /// A 64-bit signed number.
    Int(i64),
    /// A finite binary64 number.
    Real(f64),
}

impl Value {
    /// The kind of a known value.
    pub fn kind(self) -> Option<Kind> {
        match self {
            Value::Unknown => None,
            Value::Bool(_) => Some(Kind::Bool),
            Value::Int(_) => Some(Kind::Int),
            Value::Real(_) => Some(Kind::Real),
        }
    }

    /// The 64 bits of a constant: "Bool 0 or 1, Int two's complement, finite Real's bits"; 0 for Unknown.
    pub fn bits(self) -> u64 {
        match self {
            Value::Unknown => 0,
            Value::Bool(truth) => u64::from(truth),
            Value::Int(number) => number.cast_unsigned(),
            Value::Real(number) => number.to_bits(),
        }
    }

    /// The constant of a kind with these bits, if they are one.
    pub fn constant(kind: Kind, bits: u64) -> Option<Value> {
        match kind {
            Kind::Bool => (bits <= 1).then_some(Value::Bool(bits == 1)),
            Kind::Int => Some(Value::Int(bits.cast_signed())),
            Kind::Real => Some(f64::from_bits(bits)).filter(|real| real.is_finite()).map(Value::Real),
        }
    }

    /// The value of a state's cell: tag 0 for Unknown, else one more than the kind.
    pub(crate) fn of_cell(tag: u8, bits: u64) -> Value {
        let kind = tag.checked_sub(1).and_then(Kind::of);
        kind.and_then(|kind| Value::constant(kind, bits)).unwrap_or(Value::Unknown)
    }
}

impl From<bool> for Value {
    fn from(truth: bool) -> Value {
        Value::Bool(truth)
    }
}

impl From<i64> for Value {
    fn from(number: i64) -> Value {
        Value::Int(number)
    }
}

impl From<f64> for Value {
    fn from(number: f64) -> Value {
        Value::Real(number)
    }
}

impl fmt::Display for Value {
    fn fmt(&self, f: &mut fmt::Formatter<'_>) -> fmt::Result {
        match self {
            Value::Unknown => f.pad("Unknown"),
            Value::Bool(true) => f.pad("True"),
            Value::Bool(false) => f.pad("False"),
            Value::Int(number) => number.fmt(f),
            Value::Real(number) => write!(f, "{number:?}"),
        }
    }
}
