//! Texts that are near a text of the grammar, and texts that are not.

use differ::Random;

/// Tokens to be put in the place of others.
const OTHERS: [&str; 40] = [
    "{",
    "}",
    "(",
    ")",
    ":",
    ";",
    "=",
    ".",
    "==",
    "!=",
    "<",
    ">=",
    "+",
    "-",
    "*",
    "&&",
    "||",
    "!",
    "NOT",
    "AND",
    "Command",
    "Lookup",
    "Real",
    "RealBits",
    "NodeList",
    "Assignment",
    "Priority",
    "PreCondition",
    "RepeatCondition",
    "ExitCondition",
    "UNKNOWN",
    "true",
    "state",
    "NONE",
    "x",
    "12",
    "1.5",
    "99999999999999999999",
    "/",
    "@",
];

/// What is done to a token.
#[derive(Clone, Copy)]
pub enum Damage {
    Dropped,
    Doubled,
    /// With another token of the text.
    Exchanged,
    /// By a token of any sort.
    Replaced,
}

impl Damage {
    pub const ALL: [Damage; 4] = [Damage::Dropped, Damage::Doubled, Damage::Exchanged, Damage::Replaced];
}

/// The tokens with one of them damaged.
pub fn tokens(random: &mut Random, tokens: &[String], at: usize, damage: Damage) -> Vec<String> {
    let mut tokens = tokens.to_vec();
    match damage {
        Damage::Dropped => drop(tokens.remove(at)),
        Damage::Doubled => tokens.insert(at, tokens[at].clone()),
        Damage::Exchanged => {
            let other = random.below(tokens.len());
            tokens.swap(at, other);
        }
        Damage::Replaced => tokens[at] = random.pick(&OTHERS).to_string(),
    }
    tokens
}

/// A byte changed, dropped, or put in.
pub fn byte(random: &mut Random, text: &[u8]) -> Vec<u8> {
    let mut text = text.to_vec();
    let at = random.below(text.len());
    let byte =
        if random.chance(70) { random.pick(b"{}();:=.<>!&|+-*/ \n_aZ09P\"") } else { random.bits() as u8 };
    match random.below(3) {
        0 => text[at] = byte,
        1 => drop(text.remove(at)),
        _ => text.insert(at, byte),
    }
    text
}

/// Bytes, or a heap of tokens.
pub fn anything(random: &mut Random) -> Vec<u8> {
    if random.chance(40) {
        return (0..random.below(40)).map(|_| random.bits() as u8).collect();
    }
    let mut text = b"{".repeat(random.below(2));
    for _ in 0..random.below(12) {
        text.extend(random.pick(&OTHERS).bytes());
        text.extend(b" ".repeat(random.below(2)));
    }
    text
}
