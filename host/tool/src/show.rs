//! `show`: a plan as text, which reads back into a plan that runs alike.

use crate::source::load;
use crate::text::{read_text, refusal_name};
use crate::trouble::Trouble;
use crate::written::contents;
use reader::{Names, Written, text_of};
use samblokur::Plan;
use std::fmt::Write;

pub fn show(file: &str, told: &mut String) -> Result<(), Trouble> {
    let source = load(file)?;
    let plan = Plan::open(&source.image).map_err(Trouble::refused(file))?;
    let records = plan.records();
    let names = if source.is_text { source.names } else { Names::numbered(&records) };
    let written = text_of(&source.image, &names);
    let _ = writeln!(told, "// {file}: {}", contents(&records));
    for line in about(&written, &source.image) {
        let _ = writeln!(told, "// {line}");
    }
    told.push('\n');
    told.push_str(&written.text);
    Ok(())
}

/// What a reader of the text must know, if it does not read back into the same bytes.
fn about(written: &Written, image: &[u8]) -> Vec<String> {
    if written.is_cut {
        let so_far = "What is not written stands as ?.";
        return vec![format!(
            "No text has this image: its shared entries are too many to be written out. {so_far}"
        )];
    }
    let remarks = written.remarks.join(", ");
    match read_text(written.text.as_bytes()) {
        Ok(reading) if reading.image == image => Vec::new(),
        Ok(_) => {
            let why = if remarks.is_empty() { "its records are in another order" } else { &remarks };
            vec![
                format!("No text has this image's own bytes: {why}."),
                "This one reads into another image that runs alike.".to_string(),
            ]
        }
        Err(refused) => {
            let (number, name) = (refused.number, refusal_name(refused.number));
            let why = if remarks.is_empty() { String::new() } else { format!(" ({remarks})") };
            vec![format!("No text has this image{why}: written out, it is refused with {number} {name}.")]
        }
    }
}
