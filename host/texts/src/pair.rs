//! One text read by two readers into equal buffers; all of it is compared afterwards.

use crate::known::Known;
use crate::tally::Tally;
use samblokur_sys::text::{Reads, TextReport};
use std::fmt;

/// What the image buffer holds before a call, and what stands beyond the part that is lent.
const CANARY: u8 = 0xA5;
const BEYOND: usize = 64;

/// Room for every image.
pub const ROOM: usize = 41108;

static CANARIES: [u8; ROOM + BEYOND] = [CANARY; ROOM + BEYOND];

/// Two readers, and what they met.
pub struct Pair<'r> {
    pub subject: &'r dyn Reads,
    pub model: &'r dyn Reads,
    pub tally: Tally,
}

/// A text that two readers answer differently, or otherwise than it must be.
#[derive(Clone, Debug)]
pub struct Difference {
    what: String,
    text: Vec<u8>,
}

impl Pair<'_> {
    /// Reads a text with room for every image.
    pub fn read(&mut self, text: &[u8], known: &Known) -> Result<TextReport, Difference> {
        self.read_into(text, ROOM, known)
    }

    /// Reads a text with this room.
    pub fn read_into(&mut self, text: &[u8], room: usize, known: &Known) -> Result<TextReport, Difference> {
        let differs = |what: String| Difference { what, text: text.to_vec() };
        let (subject, ours) = called(self.subject, text, room);
        let (model, theirs) = called(self.model, text, room);
        self.tally.answer(&model);
        if subject != model {
            return Err(differs(format!("the subject answers {subject:?}, the model {model:?}")));
        }
        if ours != theirs {
            let at = (0..ours.len()).find(|&at| ours[at] != theirs[at]).unwrap_or(0);
            return Err(differs(format!("byte {at} of the image: {}, but model {}", ours[at], theirs[at])));
        }
        let rest = &theirs[model.length as usize..];
        if *rest != CANARIES[..rest.len()] || (model.number != 0 && model.length != 0) {
            return Err(differs(format!(
                "something is written beyond the image, or on the refusal {model:?}"
            )));
        }
        self.tally.known += u64::from(!matches!(known, Known::Nothing));
        match is_as_known(&model, &theirs, known) {
            true => Ok(model),
            false => Err(differs(format!("the answer is {model:?}, known was {known:?}"))),
        }
    }
}

fn called(reader: &dyn Reads, text: &[u8], room: usize) -> (TextReport, Vec<u8>) {
    let mut buffer = vec![CANARY; room + BEYOND];
    let report = reader.read(text, &mut buffer[..room]);
    (report, buffer)
}

fn is_as_known(report: &TextReport, buffer: &[u8], known: &Known) -> bool {
    match known {
        Known::Image(image) => {
            let report = (report.number, report.place, report.length);
            report == (0, 0, image.len() as u64) && buffer.starts_with(image)
        }
        Known::Refused(number, place) => (report.number, report.place) == (*number, *place),
        Known::Number(number) => report.number == *number,
        Known::Nothing => true,
    }
}

impl fmt::Display for Difference {
    fn fmt(&self, f: &mut fmt::Formatter<'_>) -> fmt::Result {
        writeln!(f, "{}", self.what)?;
        writeln!(f, "the text ({} bytes): {:?}", self.text.len(), String::from_utf8_lossy(&self.text))
    }
}
