//! An independent reader of plans as text, written from docs/NOTATION.md: text into image bytes, with the names and
//! text spans by which a tool speaks of them. The proved reader is tested and measured against it.

mod build;
mod cursor;
mod formula;
mod initial;
mod lead;
mod names;
mod outline;
mod parser;
mod phrase;
mod reading;
mod recognise;
mod scope;
mod token;
mod write;
mod writer;

pub use lead::Lead;
pub use names::Names;
pub use outline::Span;
pub use reading::{Reading, Refused, Spans, Undeclared, Why};
pub use scope::Space;
pub use write::{Written, text_of};

use build::{build, counts, length};
use outline::{Body, Outline};
use plain::Plain;
use samblokur_sys::text::{Reads, TextReport};
use samblokur_sys::{Counts, Executive, Report};

/// "levels of nodes: 16"
const LEVELS: usize = 16;

/// "nodes, entries, variables, lookups"
const MOST: [usize; 4] = [256, 2048, 128, 64];

/// The plain reader.
#[derive(Clone, Copy, Debug)]
pub struct PlainReader;

/// Reads a text into an image of at most `room` bytes.
///
/// # Errors
/// The first of docs/NOTATION.md's refusals that applies.
pub fn read(text: &[u8], room: usize) -> Result<Reading, Refused> {
    let outline = recognise::recognise(text).map_err(|miss| match miss.is_broken {
        true => refused(40, miss.place, Why::Comment(miss.word)),
        false => refused(40, miss.place, Why::Text(miss.word, miss.expected)),
    })?;
    if let Some(node) = outline.nodes.iter().find(|node| node.level > LEVELS) {
        return Err(refused(41, node.begins.start, Why::Level(node.begins.clone())));
    }
    let meant = scope::resolve(text, &outline).map_err(|bad| {
        let why = match bad.first {
            Some(first) => Why::Twice(bad.space, bad.name.clone(), first),
            None => Why::Undeclared(undeclared(text, &outline, bad.space, bad.name.clone())),
        };
        refused(42, bad.name.start, why)
    })?;
    let counts = counts(&outline);
    if counts.iter().zip(MOST).any(|(&count, most)| count > most) {
        return Err(refused(3, 0, Why::Count(counts)));
    }
    if length(&outline) > room {
        return Err(refused(43, 0, Why::Room(length(&outline))));
    }
    let built = build(&outline, &meant);
    checked(Reading { spans: spans(&outline, &meant, built.entries), image: built.image })
}

fn refused(number: u32, place: usize, why: Why) -> Refused {
    Refused { number, place, why }
}

fn undeclared(text: &[u8], outline: &Outline, space: Space, name: Span) -> Undeclared {
    let is_it = |other: &Span| text[other.clone()] == text[name.clone()];
    let others = Space::ALL.into_iter().filter(|&other| other != space);
    let elsewhere = others.filter(|&other| declared(outline, other).iter().any(is_it)).collect();
    Undeclared { space, declared: declared(outline, space), elsewhere, name }
}

/// The names of a name space.
fn declared(outline: &Outline, space: Space) -> Vec<Span> {
    match space {
        Space::Command => outline.commands.iter().map(|command| command.name.clone()).collect(),
        Space::Lookup => outline.lookups.iter().map(|lookup| lookup.name.clone()).collect(),
        Space::Variable => outline.variables.iter().map(|variable| variable.name.clone()).collect(),
        Space::Node => {
            let named = outline.nodes.iter().filter(|node| node.is_named);
            named.map(|node| node.begins.clone()).collect()
        }
    }
}

/// The others of 1 to 12.
fn checked(reading: Reading) -> Result<Reading, Refused> {
    let (mut counts, mut report) = (Counts::default(), Report::default());
    match Plain::check(&reading.image, &mut counts, &mut report) {
        0 => Ok(reading),
        number => Err(refused(number, report.record as usize, Why::Image(Box::new(reading)))),
    }
}

fn spans(outline: &Outline, meant: &[usize], entries: Vec<Span>) -> Spans {
    Spans {
        commands: outline.commands.iter().map(|command| (command.name.clone(), command.number)).collect(),
        lookups: outline.lookups.iter().map(|lookup| lookup.name.clone()).collect(),
        variables: outline.variables.iter().map(|variable| variable.name.clone()).collect(),
        nodes: outline.nodes.iter().map(|node| node.is_named.then(|| node.begins.clone())).collect(),
        called: outline
            .nodes
            .iter()
            .map(|node| match node.body {
                Body::Command(command) => Some(meant[command]),
                Body::List | Body::Assignment(..) => None,
            })
            .collect(),
        entries,
    }
}

impl Reads for PlainReader {
    fn read(&self, text: &[u8], image: &mut [u8]) -> TextReport {
        match read(text, image.len()) {
            Ok(reading) => {
                image[..reading.image.len()].copy_from_slice(&reading.image);
                TextReport { number: 0, place: 0, length: reading.image.len() as u64 }
            }
            Err(refused) => TextReport { number: refused.number, place: refused.place as u64, length: 0 },
        }
    }
}
