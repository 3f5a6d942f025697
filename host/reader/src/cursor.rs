//! A walk over the tokens of a text, and what is said of a token that cannot stand.

use crate::lead::{Lead, is_name, whole};
use crate::outline::Span;
use crate::token::{Next, next};

/// The token that stands next; an empty one at the end.
pub struct Cursor<'t> {
    pub text: &'t [u8],
    from: usize,
    to: usize,
    /// A comment that does not end, or a `/` that begins none.
    broken: Option<Span>,
}

/// 40: the length of the longest prefix that some text begins with, the token there, and what could have stood.
#[derive(Debug)]
pub struct Miss {
    pub place: usize,
    pub word: Span,
    pub expected: Vec<Lead>,
    pub is_broken: bool,
}

impl<'t> Cursor<'t> {
    pub fn new(text: &'t [u8]) -> Cursor<'t> {
        let mut cursor = Cursor { text, from: 0, to: 0, broken: None };
        cursor.advance();
        cursor
    }

    pub fn token(&self) -> &'t [u8] {
        &self.text[self.from..self.to]
    }

    pub fn span(&self) -> Span {
        self.from..self.to
    }

    pub fn advance(&mut self) {
        (self.from, self.to) = match next(self.text, self.to) {
            Next::Token(span) => (span.start, span.end),
            Next::End => (self.text.len(), self.text.len()),
            Next::Broken(span) => {
                let place = span.end;
                self.broken = Some(span);
                (place, place)
            }
        };
    }

    /// The token cannot stand, where these can.
    pub fn miss(&self, expected: &[Lead]) -> Miss {
        let reach = expected.iter().map(|lead| lead.reach(self.token())).max().unwrap_or(0);
        let word = self.broken.clone().unwrap_or(self.span());
        Miss { place: self.from + reach, word, expected: expected.to_vec(), is_broken: self.broken.is_some() }
    }

    /// Nothing may follow.
    pub fn end(&self) -> Result<(), Miss> {
        match self.from == self.text.len() && self.broken.is_none() {
            true => Ok(()),
            false => Err(self.miss(&[])),
        }
    }

    /// This word or sign.
    pub fn the(&mut self, word: &'static str) -> Result<(), Miss> {
        if self.token() != word.as_bytes() {
            return Err(self.miss(&[Lead::The(word)]));
        }
        self.advance();
        Ok(())
    }

    pub fn name(&mut self) -> Result<Span, Miss> {
        self.name_or(&[Lead::Name])
    }

    /// A name, where these could stand too but do not.
    pub fn name_or(&mut self, expected: &[Lead]) -> Result<Span, Miss> {
        if !is_name(self.token()) {
            return Err(self.miss(expected));
        }
        let span = self.span();
        self.advance();
        Ok(span)
    }

    pub fn whole(&mut self, most: u64) -> Result<u64, Miss> {
        let value = whole(self.token(), most).ok_or_else(|| self.miss(&[Lead::UpTo(most)]))?;
        self.advance();
        Ok(value)
    }
}
