//! `read`: a plan's text into an image file.

use crate::source::load;
use crate::trouble::Trouble;
use crate::written::contents;
use samblokur::Records;
use std::fmt::Write;
use std::fs;

pub fn read(file: &str, to: &str, told: &mut String) -> Result<(), Trouble> {
    let source = load(file)?;
    if !source.is_text {
        return Err(Trouble::Usage(format!("`{file}` is a plan image, and `read` takes a text")));
    }
    fs::write(to, &source.image).map_err(|why| Trouble::Write { file: to.to_string(), why })?;
    let contents = contents(&Records::new(&source.image));
    let _ = writeln!(told, "{to}: {contents}; {} bytes.", source.image.len());
    Ok(())
}
