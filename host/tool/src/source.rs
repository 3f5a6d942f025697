//! A plan file: an image, or a text that is read into one.

use crate::complaint::complaint;
use crate::text::read_text;
use crate::trouble::{Trouble, read_bytes};
use reader::Names;
use std::io;

/// "edition (1)", as the first two bytes of an image have it.
const EDITION: [u8; 2] = [1, 0];

const BYTE_ORDER_MARK: &[u8] = b"\xEF\xBB\xBF";

/// A plan's image, and the names that its text gives.
pub struct Source {
    pub image: Vec<u8>,
    pub names: Names,
    /// Whether it was read from text.
    pub is_text: bool,
}

/// The plan of a file. An image begins with its edition, or has bytes that no text has.
pub fn load(file: &str) -> Result<Source, Trouble> {
    let bytes = read_bytes(file)?;
    if bytes.starts_with(b"\xFF\xFE") || bytes.starts_with(b"\xFE\xFF") {
        let why = io::Error::other("it is UTF-16 text; save it as UTF-8");
        return Err(Trouble::Read { file: file.to_string(), why });
    }
    if bytes.starts_with(&EDITION) || bytes.contains(&0) {
        return Ok(Source { image: bytes, names: Names::default(), is_text: false });
    }
    let text = bytes.strip_prefix(BYTE_ORDER_MARK).unwrap_or(&bytes);
    match read_text(text) {
        Ok(reading) => {
            let names = Names::of(text, &reading.spans);
            Ok(Source { image: reading.image, names, is_text: true })
        }
        Err(refused) => {
            Err(Trouble::Text { number: refused.number, complaint: complaint(file, text, &refused) })
        }
    }
}
