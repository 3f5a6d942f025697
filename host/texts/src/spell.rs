//! Tokens as bytes, with random blanks and comments between them; where each token stands.

use differ::Random;

const BLANKS: [&str; 13] = [
    " ",
    "\n",
    "\t",
    "\r\n",
    "  ",
    "/**/",
    "/* a comment */",
    "/***/",
    "/* * / // \n NOT { */",
    "// to the end } */\n",
    "//\n",
    "\n    ",
    "/*/ */",
];

/// The text, and the place of each token.
pub struct Spelled {
    pub text: Vec<u8>,
    pub places: Vec<usize>,
}

pub fn spell(random: &mut Random, tokens: &[String]) -> Spelled {
    let mut spelled = Spelled { text: Vec::new(), places: Vec::new() };
    // Texts with many blanks, with few, and with none but the needed ones.
    let often = random.pick(&[0, 0, 10, 50, 90]);
    for token in tokens {
        while random.chance(often) {
            spelled.text.extend(random.pick(&BLANKS).bytes());
        }
        if needs_blank(&spelled.text, token) {
            spelled.text.extend(random.pick(&BLANKS).bytes());
        }
        spelled.places.push(spelled.text.len());
        spelled.text.extend(token.bytes());
    }
    if random.chance(often) {
        spelled.text.extend(random.pick(&["\n", " // the end", "/* end */"]).bytes());
    }
    spelled
}

/// Two words, or a number and a word, would else be one.
fn needs_blank(text: &[u8], token: &str) -> bool {
    let is_word = |byte: u8| byte.is_ascii_alphanumeric() || byte == b'_';
    text.last().copied().is_some_and(is_word) && token.bytes().next().is_some_and(is_word)
}
