//! Tokens: words, numbers and signs, each as long as it can be, with blanks and comments between them.

use std::ops::Range;

/// The next token at or after a place.
pub enum Next {
    Token(Range<usize>),
    /// The text is at its end.
    End,
    /// A `/` that begins no comment, or a comment that does not end: no text goes on beyond its end.
    Broken(Range<usize>),
}

pub fn next(text: &[u8], from: usize) -> Next {
    let mut at = from;
    loop {
        match text.get(at..).unwrap_or_default() {
            [] => return Next::End,
            [b' ' | b'\t' | b'\n' | b'\r', ..] => at += 1,
            [b'/', b'*', inside @ ..] => match inside.windows(2).position(|two| two == b"*/") {
                Some(ends) => at += ends + 4,
                None => return Next::Broken(at..text.len()),
            },
            [b'/', b'/', line @ ..] => match line.iter().position(|&byte| byte == b'\n') {
                Some(ends) => at += ends + 3,
                None => return Next::End,
            },
            [b'/', ..] => return Next::Broken(at..at + 1),
            rest => return Next::Token(at..at + length(rest)),
        }
    }
}

/// How long the token is that bytes begin with.
fn length(bytes: &[u8]) -> usize {
    let run = |goes_on: fn(u8) -> bool| bytes.iter().position(|&byte| !goes_on(byte)).unwrap_or(bytes.len());
    match bytes {
        [b'A'..=b'Z' | b'a'..=b'z', ..] => run(is_word_byte),
        [b'0'..=b'9', ..] => run(|byte| is_word_byte(byte) || byte == b'.'),
        [b'<' | b'>' | b'=' | b'!', b'=', ..] | [b'&', b'&', ..] | [b'|', b'|', ..] => 2,
        _ => 1,
    }
}

fn is_word_byte(byte: u8) -> bool {
    byte.is_ascii_alphanumeric() || byte == b'_'
}
