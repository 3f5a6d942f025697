//! A text that is being recognised: where the walk stands, and the outline so far.

use crate::cursor::Cursor;
use crate::outline::{Mention, MentionId, Outline, Span, What};

pub struct Parser<'t> {
    pub cursor: Cursor<'t>,
    pub outline: Outline,
}

impl<'t> Parser<'t> {
    pub fn new(text: &'t [u8]) -> Parser<'t> {
        Parser { cursor: Cursor::new(text), outline: Outline::default() }
    }

    pub fn mention(&mut self, name: Span, what: What) -> MentionId {
        self.outline.mentions.push(Mention { name, what });
        self.outline.mentions.len() - 1
    }
}

/// The number of a kind's word.
pub fn kind(token: &[u8]) -> Option<u8> {
    match token {
        b"Boolean" => Some(0),
        b"Integer" => Some(1),
        b"Real" => Some(2),
        _ => None,
    }
}
