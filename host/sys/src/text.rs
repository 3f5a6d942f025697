//! The C interface of include/samblokur_text.h as Rust sees it: the reader of plans as text, which runs at the desk,
//! not in the cabinet.

/// What reading a text answers.
#[derive(Clone, Copy, Debug, Default, PartialEq, Eq)]
pub struct TextReport {
    /// The paper's refusal number, 0 where the text is accepted.
    pub number: u32,
    /// The place in the text for 40 to 42, the record for the others of 1 to 12, else 0.
    pub place: u64,
    /// The length of the image; 0 on every refusal.
    pub length: u64,
}

/// A reader: text into the image that is lent. Nothing is written on a refusal, nor ever beyond the image's length.
pub trait Reads {
    /// Reads a text.
    fn read(&self, text: &[u8], image: &mut [u8]) -> TextReport;
}

/// The proved reader.
#[derive(Clone, Copy, Debug)]
pub struct LinkedReader;

unsafe extern "C" {
    fn samblokur_read(
        text: *const u8,
        text_len: usize,
        image: *mut u8,
        image_len: usize,
        report: *mut [u64; 3],
    ) -> u32;
}

impl Reads for LinkedReader {
    fn read(&self, text: &[u8], image: &mut [u8]) -> TextReport {
        let mut report = [0; 3];
        let (bytes, length) = (text.as_ptr(), text.len());
        // SAFETY: every pointer comes from a reference or slice that lives through the call, the mutable ones are
        // exclusive, each length is its slice's own, and the library keeps no pointer.
        let number = unsafe { samblokur_read(bytes, length, image.as_mut_ptr(), image.len(), &mut report) };
        let [told, place, length] = report;
        assert_eq!(told, u64::from(number), "the report has another number than the call");
        TextReport { number, place, length }
    }
}
