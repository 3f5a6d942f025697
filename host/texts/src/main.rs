//! `texts [--texts N] [--seed S]`: the longer tour.

use differ::command;
use std::process::ExitCode;
use texts::{MODEL, SUBJECT, tour};

fn main() -> ExitCode {
    let longer = |seed, count| tour(&SUBJECT, &MODEL, seed, count);
    command("texts [--texts N] [--seed S]", "--texts", 5_000_000, longer)
}
