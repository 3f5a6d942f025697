//! The stack of the deepest reading: the smallest thread in which the texts that ask most of it are read.

use samblokur_sys::text::Reads;
use std::error::Error;
use std::process::{Command, Stdio};
use std::thread;

/// The argument by which this program calls itself; the thread's size in bytes follows.
pub const WITHIN: &str = "--reading-within";

const KB: usize = 1024;

/// A thread that is too small ends its process, so each size is tried in a process of its own.
pub fn least() -> Result<usize, Box<dyn Error>> {
    let (mut small, mut enough) = (0, 4096 * KB);
    while enough - small > KB {
        let middle = (small + enough) / 2;
        if works_within(middle)? {
            enough = middle;
        } else {
            small = middle;
        }
    }
    Ok(enough)
}

fn works_within(bytes: usize) -> Result<bool, Box<dyn Error>> {
    let mut again = Command::new(std::env::current_exe()?);
    let ended =
        again.args([WITHIN, &bytes.to_string()]).stdout(Stdio::null()).stderr(Stdio::null()).status()?;
    Ok(ended.success())
}

/// The deepest texts in a thread of so many bytes.
pub fn within(bytes: usize) -> Result<(), Box<dyn Error>> {
    let all = texts::deepest();
    let mut image = vec![0; 65536];
    let calls = thread::Builder::new().stack_size(bytes).spawn(move || {
        for text in &all {
            texts::SUBJECT.read(text, &mut image);
        }
    })?;
    calls.join().map_err(|_| "the reading panicked")?;
    Ok(())
}
