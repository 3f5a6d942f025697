//! What the deepest call was seen to take is within the figure that the header names.

use std::error::Error;
use std::process::Command;

const HEADER: &str = include_str!("../../include/samblokur.h");

#[test]
fn the_measured_stack_is_within_the_figure() -> Result<(), Box<dyn Error>> {
    let (before, _) = HEADER.split_once(" bytes of stack").ok_or("the header names no figure")?;
    let figure: usize = before.rsplit(' ').next().unwrap_or_default().parse()?;
    let said = Command::new(env!("CARGO_BIN_EXE_bench")).arg("--stack").output()?;
    let said = String::from_utf8(said.stdout)?;
    let measured: usize = said.split_whitespace().rev().nth(1).ok_or("no measure")?.parse()?;
    assert!(0 < measured && measured <= figure, "measured {measured}, named {figure}");
    Ok(())
}
