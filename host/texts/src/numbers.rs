//! Numbers as tokens.

use crate::plan::{BOOL, INT};
use differ::Random;

/// A whole number, sometimes with zeros before it.
pub fn zeros(random: &mut Random, number: u64) -> String {
    let zeros = if random.chance(5) { random.below(30) } else { 0 };
    format!("{}{number}", "0".repeat(zeros))
}

/// A constant's tokens.
pub fn constant(random: &mut Random, kind: u8, bits: u64) -> Vec<String> {
    match kind {
        BOOL => vec![if bits == 1 { "true" } else { "false" }.to_string()],
        INT => {
            let value = bits.cast_signed();
            let digits = zeros(random, value.unsigned_abs());
            let minus = value < 0 || (value == 0 && random.chance(20));
            signed(minus, vec![digits])
        }
        _ => {
            let (minus, size) = (bits >> 63 == 1, bits & !(1 << 63));
            let decimal = decimal(f64::from_bits(size)).filter(|_| random.chance(80));
            let exact = || ["RealBits", "(", &size.to_string(), ")"].map(str::to_string).to_vec();
            signed(minus, decimal.map_or_else(exact, |digits| vec![digits]))
        }
    }
}

fn signed(minus: bool, mut tokens: Vec<String>) -> Vec<String> {
    if minus {
        tokens.insert(0, "-".to_string());
    }
    tokens
}

/// A decimal of at most 15 digits that is this Real.
fn decimal(size: f64) -> Option<String> {
    let whole = if size.fract() == 0.0 { ".0" } else { "" };
    let text = format!("{size}{whole}");
    (text.bytes().filter(u8::is_ascii_digit).count() <= 15).then_some(text)
}

/// A whole number that is this Real, as an initial value may have it.
pub fn whole_real(bits: u64) -> Option<Vec<String>> {
    let (minus, size) = (bits >> 63 == 1, f64::from_bits(bits & !(1 << 63)));
    let is_whole = size <= 999_999_999_999_999.0 && size.fract() == 0.0;
    is_whole.then(|| signed(minus, vec![format!("{size:.0}")]))
}
