//! What can stand at a place: a word or sign of the notation, a name, a number.

use std::fmt;

/// What a phrase can begin with.
#[derive(Clone, Copy, Debug, PartialEq, Eq)]
pub enum Lead {
    /// This word or sign.
    The(&'static str),
    /// Any name.
    Name,
    /// A whole number up to this one.
    UpTo(u64),
    /// Digits, a point and digits, at most 15 of them.
    Decimal,
}

/// "at most 15 in all, leading zeros counted"
const DIGITS: usize = 15;

impl Lead {
    /// How many bytes of a token begin some token of this lead.
    pub fn reach(self, token: &[u8]) -> usize {
        match self {
            Lead::The(word) => token.iter().zip(word.as_bytes()).take_while(|(a, b)| a == b).count(),
            Lead::Name => {
                if is_word(token) {
                    token.len()
                } else {
                    0
                }
            }
            Lead::UpTo(most) => within(token, most),
            Lead::Decimal => decimal_reach(token),
        }
    }
}

impl fmt::Display for Lead {
    fn fmt(&self, f: &mut fmt::Formatter<'_>) -> fmt::Result {
        match self {
            Lead::The(word) => f.pad(word),
            Lead::Name => f.pad("a name"),
            Lead::UpTo(most) => write!(f, "a whole number up to {most}"),
            Lead::Decimal => f.pad("a decimal of at most 15 digits"),
        }
    }
}

/// How many digits a number keeps within its bound.
fn within(token: &[u8], most: u64) -> usize {
    let mut value = 0u64;
    for (i, &byte) in token.iter().enumerate() {
        let digit = byte.wrapping_sub(b'0');
        let more = value.checked_mul(10).and_then(|ten| ten.checked_add(u64::from(digit)));
        match more.filter(|&more| digit <= 9 && more <= most) {
            Some(more) => value = more,
            None => return i,
        }
    }
    token.len()
}

/// How many bytes can still become a decimal: one digit at least must be left for what follows the point.
fn decimal_reach(token: &[u8]) -> usize {
    let digits = |bytes: &[u8]| bytes.iter().take_while(|byte| byte.is_ascii_digit()).count();
    let before = digits(token).min(DIGITS - 1);
    match token.get(before..) {
        Some([b'.', after @ ..]) if before > 0 => before + 1 + digits(after).min(DIGITS - before),
        _ => before,
    }
}

/// A token that begins with a letter is a word, and every byte of it is one of a word.
pub fn is_word(token: &[u8]) -> bool {
    token.first().is_some_and(u8::is_ascii_alphabetic)
}

/// A word that is not reserved.
pub fn is_name(token: &[u8]) -> bool {
    is_word(token) && !is_reserved(token)
}

/// The value of a whole number within its bound.
pub fn whole(token: &[u8], most: u64) -> Option<u64> {
    let all = !token.is_empty() && within(token, most) == token.len();
    all.then(|| token.iter().fold(0, |value, byte| value * 10 + u64::from(byte - b'0')))
}

/// The value of a decimal: the fraction that its digits write, rounded once.
pub fn decimal(token: &[u8]) -> Option<f64> {
    let ends_with_digit = token.last().is_some_and(u8::is_ascii_digit);
    let is_decimal = ends_with_digit && token.contains(&b'.') && decimal_reach(token) == token.len();
    if is_decimal { as_real(token) } else { None }
}

/// A number's digits as a Real.
pub fn as_real(token: &[u8]) -> Option<f64> {
    std::str::from_utf8(token).ok()?.parse().ok()
}

fn is_reserved(word: &[u8]) -> bool {
    RESERVED.binary_search_by(|reserved| reserved.as_bytes().cmp(word)).is_ok()
}

/// The reserved words, in the order of their bytes.
const RESERVED: [&str; 47] = [
    "AND",
    "Assignment",
    "Boolean",
    "Command",
    "EXECUTING",
    "EndCondition",
    "ExitCondition",
    "FAILING",
    "FAILURE",
    "FINISHED",
    "FINISHING",
    "INACTIVE",
    "INTERRUPTED",
    "INVARIANT",
    "ITERATION_ENDED",
    "Integer",
    "InvariantCondition",
    "Lookup",
    "LookupNow",
    "LookupOnChange",
    "NONE",
    "NOT",
    "NodeList",
    "OR",
    "PARENT",
    "POST",
    "PRE",
    "PostCondition",
    "PreCondition",
    "Priority",
    "Real",
    "RealBits",
    "RepeatCondition",
    "RepeatUntilCondition",
    "SKIPPED",
    "SUCCESS",
    "SkipCondition",
    "StartCondition",
    "UNKNOWN",
    "WAITING",
    "WRITE_LOST",
    "failure",
    "failureType",
    "false",
    "outcome",
    "state",
    "true",
];
