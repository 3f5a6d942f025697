//! A tour as a command: `NAME [WHAT N] [--seed S]`.

use std::fmt::Display;
use std::process::ExitCode;

/// Makes the tour that the arguments ask for, of `many` where they do not say, and tells its tally or the difference.
pub fn command<T: Display, D: Display>(
    usage: &str,
    what: &str,
    many: u64,
    tour: impl Fn(u64, u64) -> Result<T, D>,
) -> ExitCode {
    let arguments: Vec<String> = std::env::args().skip(1).collect();
    let Some((count, seed)) = read(&arguments, what, many) else {
        eprintln!("usage: {usage}");
        return ExitCode::from(64);
    };
    match tour(seed, count) {
        Ok(tally) => {
            print!("{tally}");
            ExitCode::SUCCESS
        }
        Err(difference) => {
            eprintln!("seed {seed}: {difference}");
            ExitCode::FAILURE
        }
    }
}

fn read(arguments: &[String], what: &str, many: u64) -> Option<(u64, u64)> {
    let (mut count, mut seed) = (many, 1);
    for pair in arguments.chunks(2) {
        match pair {
            [name, number] if name == what => count = number.parse().ok()?,
            [name, number] if name == "--seed" => seed = number.parse().ok()?,
            _ => return None,
        }
    }
    Some((count, seed))
}
