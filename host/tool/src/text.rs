//! Plans as text: the one place where the tool reads them.

use reader::{Reading, Refused, read};
use samblokur_sys::text::{LinkedReader, Reads};

/// Room for every image.
const ROOM: usize = 65536;

/// The image of a text, with its names and spans; or the refusal, with what there is to say of it. The image and the
/// refusal are the proved reader's; names, spans and words are the plain reader's, which must agree.
pub fn read_text(text: &[u8]) -> Result<Reading, Refused> {
    let mut image = vec![0; ROOM];
    let report = LinkedReader.read(text, &mut image);
    image.truncate(report.length as usize);
    let plain = read(text, ROOM);
    let told = match &plain {
        Ok(_) => (0, 0),
        Err(refused) => (refused.number, refused.place as u64),
    };
    assert_eq!((report.number, report.place), told, "the proved reader and the plain one answer differently");
    let reading = plain?;
    assert!(image == reading.image, "the proved reader and the plain one give different images");
    Ok(Reading { image, spans: reading.spans })
}

/// The paper's name of a refusal of a text.
pub fn refusal_name(number: u32) -> &'static str {
    match number {
        3 => "Count",
        9 => "Expression",
        10 => "Deep",
        11 => "Kind",
        40 => "Text",
        41 => "Level",
        42 => "Name",
        43 => "ImageRoom",
        _ => "",
    }
}
