//! The stack that the deepest call was seen to take: how much further down a thread can go when it then makes the calls to
//! an executive that does nothing.

use crate::sum::{QUIET, Sum};
use samblokur_sys::{Card, Counts, Executive, Library, Report, State};
use std::error::Error;
use std::hint::black_box;
use std::process::{Command, Stdio};
use std::thread;

/// The argument by which this program calls itself; the levels to go down follow, and which of the two to do there.
pub const WITHIN: &str = "--within";

/// Whose calls a thread makes when it has gone down.
const LIBRARY: &str = "library";
const NOTHING: &str = "nothing";

const THREAD: usize = 256 * 1024;

/// The bytes that the calls take at least: which of a level's bytes were the last to do is not seen.
pub fn measured() -> Result<usize, Box<dyn Error>> {
    let level = passed(1, NOTHING)?.zip(passed(0, NOTHING)?).map(|(one, none)| one - none);
    Ok(deepest(NOTHING)? - deepest(LIBRARY)? - level.ok_or("a thread cannot go down at all")?)
}

/// How many bytes down a thread can go at most and still make the calls.
fn deepest(whose: &str) -> Result<usize, Box<dyn Error>> {
    let (mut works, mut fails, mut bytes) = (0, THREAD / 16, 0);
    while fails - works > 1 {
        let middle = (works + fails) / 2;
        match passed(middle, whose)? {
            Some(down) => (works, bytes) = (middle, down),
            None => fails = middle,
        }
    }
    Ok(bytes)
}

/// A thread that goes too far ends its process, so each is tried in a process of its own.
fn passed(levels: usize, whose: &str) -> Result<Option<usize>, Box<dyn Error>> {
    let mut again = Command::new(std::env::current_exe()?);
    let ended = again.args([WITHIN, &levels.to_string(), whose]).stderr(Stdio::null()).output()?;
    if !ended.status.success() {
        return Ok(None);
    }
    Ok(Some(String::from_utf8(ended.stdout)?.trim().parse()?))
}

/// Goes so many levels down, makes the four calls there, and prints how many bytes down that was.
pub fn within(levels: usize, whose: &str) -> Result<(), Box<dyn Error>> {
    let sum = Sum::new()?;
    let mut state = Box::new(sum.fresh::<Library>());
    let calls = if whose == LIBRARY { every_call::<Library> } else { every_call::<Nothing> };
    let thread = thread::Builder::new().stack_size(THREAD).spawn(move || {
        let top = black_box(0u8);
        down(levels, std::ptr::from_ref(&top) as usize, &mut || calls(&sum, &mut state))
    })?;
    println!("{}", thread.join().map_err(|_| "the calls panicked")?);
    Ok(())
}

#[inline(never)]
fn every_call<E: Executive>(sum: &Sum, state: &mut State) {
    sum.check::<E>();
    sum.start::<E>(state);
    sum.run::<E>(state, QUIET);
    sum.turn::<E>(state);
}

/// Takes what it is lent, and leaves it.
struct Nothing;

impl Executive for Nothing {
    #[inline(never)]
    fn check(image: &[u8], counts: &mut Counts, report: &mut Report) -> u32 {
        black_box((image, counts, report)).0.len() as u32
    }

    #[inline(never)]
    fn fresh(image: &[u8], state: &mut State, card: &mut Card, report: &mut Report) -> u32 {
        black_box((image, state, card, report)).0.len() as u32
    }

    #[inline(never)]
    fn run(
        image: &[u8],
        state: &mut State,
        card: &mut Card,
        budget: u16,
        list: &mut [u32],
        start: usize,
        report: &mut Report,
    ) -> u32 {
        black_box((image, state, card, budget, list, start, report)).0.len() as u32
    }

    #[inline(never)]
    fn turn(
        image: &[u8],
        state: &mut State,
        card: &mut Card,
        event: &[u8],
        budget: u16,
        list: &mut [u32],
        start: usize,
        report: &mut Report,
    ) -> u32 {
        black_box((image, state, card, event, budget, list, start, report)).0.len() as u32
    }
}

#[inline(never)]
fn down(levels: usize, top: usize, work: &mut dyn FnMut()) -> usize {
    let here = black_box(0u8);
    if levels == 0 {
        work();
        return top - std::ptr::from_ref(&here) as usize;
    }
    let bytes = down(levels - 1, top, work);
    black_box(&here);
    bytes
}
