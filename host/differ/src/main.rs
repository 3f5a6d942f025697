//! `differ [--calls N] [--seed S]`: the longer tour.

use differ::{Model, Subject, command, tour};
use std::process::ExitCode;

fn main() -> ExitCode {
    command("differ [--calls N] [--seed S]", "--calls", 10_000_000, tour::<Subject, Model>)
}
