//! What is said of a place in a text: the line, a caret under it, and hints.

use crate::text::refusal_name;
use reader::Span;
use std::fmt::Write;

/// Letters of a line that are shown at most before a place.
const BEFORE: usize = 60;
/// Letters of a line that are shown at most from a place on.
const AFTER: usize = 60;

/// What is said of a refusal: where, and what may help.
pub struct Said {
    what: String,
    span: Span,
    /// How much of the span could stand.
    reach: usize,
    hints: Vec<String>,
}

impl Said {
    pub fn new(what: impl Into<String>, span: Span) -> Said {
        Said { what: what.into(), span, reach: 0, hints: Vec::new() }
    }

    pub fn hint(mut self, hint: impl Into<String>) -> Said {
        self.hints.push(hint.into());
        self
    }

    /// So many bytes of the span could stand.
    pub fn reach(mut self, reach: usize) -> Said {
        self.reach = reach;
        self
    }

    /// The first line is `file:line:column: what`.
    pub fn told(&self, file: &str, text: &[u8], number: u32) -> String {
        let place = Place::of(text, self.span.start);
        let mut told = format!("{file}:{}:{}: {}\n", place.line, place.column, self.what);
        let (line, before) = place.shown(text);
        let width = shown(&text[self.span.start..place.end.min(self.span.end)]).chars().count();
        let mark = if self.reach == 0 {
            format!("^{}", "~".repeat(width.min(AFTER).saturating_sub(1)))
        } else {
            let reach = shown(&text[self.span.start..self.span.start + self.reach]).chars().count();
            format!("{}^", "~".repeat(reach.min(AFTER)))
        };
        let number_of_line = place.line.to_string();
        let _ = writeln!(told, "  {number_of_line} | {line}");
        let _ = writeln!(told, "  {:1$} | {2:3$}{mark}", "", number_of_line.len(), "", before);
        for hint in &self.hints {
            let _ = writeln!(told, "{hint}");
        }
        told + &format!("refused with {number} {}", refusal_name(number))
    }
}

/// A place in a text by line and column, both from 1; the line's first byte and its end.
pub struct Place {
    pub line: usize,
    column: usize,
    begin: usize,
    end: usize,
    at: usize,
}

impl Place {
    pub fn of(text: &[u8], at: usize) -> Place {
        let at = at.min(text.len());
        let begin = text[..at].iter().rposition(|&byte| byte == b'\n').map_or(0, |feed| feed + 1);
        let end = text[at..].iter().position(|&byte| byte == b'\n').map_or(text.len(), |feed| at + feed);
        let line = 1 + text[..begin].iter().filter(|&&byte| byte == b'\n').count();
        let column = 1 + String::from_utf8_lossy(&text[begin..at]).chars().count();
        Place { line, column, begin, end, at }
    }

    /// The line around the place, and how many letters stand before it.
    fn shown(&self, text: &[u8]) -> (String, usize) {
        let before: Vec<char> = shown(&text[self.begin..self.at]).chars().collect();
        let kept: String = before[before.len().saturating_sub(BEFORE)..].iter().collect();
        let dots = if before.len() > BEFORE { ".. " } else { "" };
        let after: String = shown(&text[self.at..self.end]).chars().take(AFTER).collect();
        let line = format!("{dots}{kept}{after}");
        (line.trim_end().to_string(), dots.len() + kept.chars().count())
    }
}

/// Bytes of a line as they may be shown: one letter for each.
fn shown(bytes: &[u8]) -> String {
    let letters = String::from_utf8_lossy(bytes);
    letters.chars().map(|letter| if letter.is_control() { ' ' } else { letter }).collect()
}

/// A part of the text as a message may quote it.
pub fn quoted(text: &[u8], span: &Span) -> String {
    let words: Vec<String> = shown(&text[span.clone()]).split_whitespace().map(str::to_string).collect();
    let all = words.join(" ");
    let short: String = all.chars().take(40).collect();
    if short.len() < all.len() { format!("'{short}..'") } else { format!("'{short}'") }
}
