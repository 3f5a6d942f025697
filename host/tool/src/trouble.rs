//! What can go wrong, as one sentence and an exit status each.

use samblokur::Refusal;
use std::fmt;
use std::fs::File;
use std::io::{self, Read};

/// A refusal ends with its number; the others end above every refusal number of the paper.
#[derive(Debug)]
pub enum Trouble {
    /// The command line is not understood.
    Usage(String),
    /// A line of an events file is not understood.
    Events { file: String, line: usize, why: String },
    /// A file cannot be read.
    Read { file: String, why: io::Error },
    /// A file cannot be written.
    Write { file: String, why: io::Error },
    /// The executive refuses.
    Refused { what: String, refusal: Refusal },
    /// A plan's text is refused.
    Text { number: u32, complaint: String },
}

impl Trouble {
    pub fn refused(what: impl Into<String>) -> impl FnOnce(Refusal) -> Trouble {
        let what = what.into();
        |refusal| Trouble::Refused { what, refusal }
    }

    pub fn status(&self) -> u8 {
        match self {
            Trouble::Usage(_) => 64,
            Trouble::Events { .. } => 65,
            Trouble::Read { .. } => 66,
            Trouble::Write { .. } => 73,
            Trouble::Refused { refusal, .. } => u8::try_from(refusal.number()).unwrap_or(70),
            Trouble::Text { number, .. } => u8::try_from(*number).unwrap_or(70),
        }
    }
}

impl fmt::Display for Trouble {
    fn fmt(&self, f: &mut fmt::Formatter<'_>) -> fmt::Result {
        match self {
            Trouble::Usage(why) => write!(f, "samblokur: {why}; see `samblokur --help`."),
            Trouble::Events { file, line, why } => write!(f, "samblokur: {file}, line {line}: {why}."),
            Trouble::Read { file, why } => write!(f, "samblokur: {file} cannot be read: {why}."),
            Trouble::Write { file, why } => write!(f, "samblokur: {file} cannot be written: {why}."),
            // Editors know the form `file:line:column:`.
            Trouble::Text { complaint, .. } => f.write_str(complaint),
            Trouble::Refused { what, refusal } => {
                write!(
                    f,
                    "samblokur: {what} is refused with {} {}: {refusal}.",
                    refusal.number(),
                    refusal.name()
                )
            }
        }
    }
}

/// Bytes that a file has at most: far more than any plan.
const MOST: usize = 1 << 24;

/// The bytes of a plan file of at most 16 MiB.
pub fn read_bytes(file: &str) -> Result<Vec<u8>, Trouble> {
    let bytes = read(file, MOST + 1).and_then(|bytes| match bytes.len() {
        ..=MOST => Ok(bytes),
        _ => Err(io::Error::other("it is over 16 MiB")),
    });
    bytes.map_err(|why| Trouble::Read { file: file.to_string(), why })
}

/// The text of an events file, without a byte order mark.
pub fn read_events(file: &str) -> Result<String, Trouble> {
    let text = String::from_utf8(read_bytes(file)?).map_err(|_| io::Error::other("it is not UTF-8 text"));
    let text = text.map_err(|why| Trouble::Read { file: file.to_string(), why })?;
    Ok(text.trim_start_matches('\u{FEFF}').to_string())
}

fn read(file: &str, most: usize) -> io::Result<Vec<u8>> {
    let mut bytes = Vec::new();
    File::open(file)?.take(most as u64).read_to_end(&mut bytes)?;
    Ok(bytes)
}
