//! Values and the operators on them.

use Value::{Bool, Clash, Int, Real, Unknown};

pub const BOOL: u8 = 0;
pub const INT: u8 = 1;
pub const REAL: u8 = 2;

/// A worked-out value. A known value of a wrong kind is a clash, "an answer of its own apart from Unknown".
#[derive(Clone, Copy)]
pub enum Value {
    Clash,
    Unknown,
    Bool(bool),
    Int(i64),
    Real(f64),
}

/// "Bool 0 or 1, Int two's complement, finite Real's bits".
pub fn is_constant(kind: u8, bits: u64) -> bool {
    match kind {
        BOOL => bits <= 1,
        INT => true,
        REAL => f64::from_bits(bits).is_finite(),
        _ => false,
    }
}

/// A kind is 0 Bool, 1 Int or 2 Real.
pub fn is_kind(kind: u8) -> bool {
    kind <= REAL
}

impl Value {
    /// A cell's tag is 0 for Unknown, else one more than the kind.
    pub fn of_cell(tag: u8, bits: u64) -> Value {
        match tag {
            1 => Bool(bits == 1),
            2 => Int(bits.cast_signed()),
            3 => Real(f64::from_bits(bits)),
            _ => Unknown,
        }
    }

    /// A clash never comes in an admitted plan; it would be written as Unknown.
    pub fn to_cell(self) -> (u8, u64) {
        match self {
            Clash | Unknown => (0, 0),
            Bool(truth) => (1, u64::from(truth)),
            Int(number) => (2, number.cast_unsigned()),
            Real(number) => (3, number.to_bits()),
        }
    }

    pub fn is_true(self) -> bool {
        matches!(self, Bool(true))
    }

    pub fn is_false(self) -> bool {
        matches!(self, Bool(false))
    }
}

/// "NOT Unknown is Unknown."
pub fn not(a: Value) -> Value {
    match a {
        Bool(truth) => Bool(!truth),
        Unknown => Unknown,
        _ => Clash,
    }
}

/// "AND is False if either side is False, True if both are True, else Unknown."
pub fn and(a: Value, b: Value) -> Value {
    match (a, b) {
        (Bool(false), Bool(_) | Unknown) | (Bool(_) | Unknown, Bool(false)) => Bool(false),
        (Bool(true), Bool(true)) => Bool(true),
        (Bool(_) | Unknown, Bool(_) | Unknown) => Unknown,
        _ => Clash,
    }
}

/// "OR is the same with True and False exchanged."
pub fn or(a: Value, b: Value) -> Value {
    match (a, b) {
        (Bool(true), Bool(_) | Unknown) | (Bool(_) | Unknown, Bool(true)) => Bool(true),
        (Bool(false), Bool(false)) => Bool(false),
        (Bool(_) | Unknown, Bool(_) | Unknown) => Unknown,
        _ => Clash,
    }
}

/// EQ "takes two of one kind"; "0.0 equals -0.0".
pub fn equal(a: Value, b: Value) -> Value {
    match (a, b) {
        (Clash, _) | (_, Clash) => Clash,
        (Unknown, _) | (_, Unknown) => Unknown,
        (Bool(a), Bool(b)) => Bool(a == b),
        (Int(a), Int(b)) => Bool(a == b),
        (Real(a), Real(b)) => Bool(a == b),
        _ => Clash,
    }
}

/// LT and LE: "Comparison of known reals is IEEE's".
pub fn compare(a: Value, b: Value, ints: fn(&i64, &i64) -> bool, reals: fn(&f64, &f64) -> bool) -> Value {
    match (a, b) {
        (Int(a), Int(b)) => Bool(ints(&a, &b)),
        (Real(a), Real(b)) => Bool(reals(&a, &b)),
        (Unknown, Int(_) | Real(_) | Unknown) | (Int(_) | Real(_), Unknown) => Unknown,
        _ => Clash,
    }
}

/// ADD, SUB and MUL: an Int result outside the range and a Real result that is infinite or NaN are Unknown.
pub fn combine(a: Value, b: Value, ints: fn(i64, i64) -> Option<i64>, reals: fn(f64, f64) -> f64) -> Value {
    match (a, b) {
        (Int(a), Int(b)) => ints(a, b).map_or(Unknown, Int),
        (Real(a), Real(b)) => Some(reals(a, b)).filter(|sum| sum.is_finite()).map_or(Unknown, Real),
        (Unknown, Int(_) | Real(_) | Unknown) | (Int(_) | Real(_), Unknown) => Unknown,
        _ => Clash,
    }
}
