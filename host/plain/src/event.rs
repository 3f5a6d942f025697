//! The taking of an event: refusals 20 to 25, then the changes of lookups, marks and card.

use crate::Refused;
use crate::form::RUNNING;
use crate::image::{COMMAND, Image, byte_at, u16_at, u32_at, u64_at};
use crate::rule::{EXECUTING, FAILING};
use crate::value::is_constant;
use samblokur_sys::{Card, State};

const HEADER: usize = 8;
const ENTRY: usize = 12;

const VALUE: u8 = 0;
const UNKNOWN: u8 = 1;
const RETURNED: u8 = 2;

struct Entry {
    form: u8,
    spare: u8,
    index: u16,
    value: u64,
}

pub fn take(image: &Image, state: &mut State, card: &mut Card, event: &[u8]) -> Result<(), Refused> {
    let entries = shaped(card, event)?;
    first(23, &entries, |i| entry_wrong(image, &entries[i]))?;
    first(24, &entries, |i| entries[..i].iter().any(|earlier| names_same(earlier, &entries[i])))?;
    first(25, &entries, |i| not_awaited(state, &entries[i]))?;
    for entry in &entries {
        change(image, state, entry);
    }
    *card = Card { serial: card.serial.wrapping_add(1), phase: RUNNING };
    Ok(())
}

/// "the lowest breaking entry is named".
fn first(number: u32, entries: &[Entry], wrong: impl Fn(usize) -> bool) -> Result<(), Refused> {
    match (0u32..).zip(0..entries.len()).find(|&(_, i)| wrong(i)) {
        Some((record, _)) => Err(Refused { number, record }),
        None => Ok(()),
    }
}

/// Refusals 20 to 22, and the entries.
fn shaped(card: &Card, event: &[u8]) -> Result<Vec<Entry>, Refused> {
    if card.phase == RUNNING {
        return Err(Refused::whole(20));
    }
    let count = usize::from(u16_at(event, 4));
    if count > 128 || u16_at(event, 6) != 0 || event.len() != HEADER + ENTRY * count {
        return Err(Refused::whole(21));
    }
    if u32_at(event, 0) != card.serial {
        return Err(Refused::whole(22));
    }
    Ok((0..count).map(|i| entry(event, HEADER + ENTRY * i)).collect())
}

fn entry(event: &[u8], at: usize) -> Entry {
    Entry {
        form: byte_at(event, at),
        spare: byte_at(event, at + 1),
        index: u16_at(event, at + 2),
        value: u64_at(event, at + 4),
    }
}

/// "form, spare, index, value or non-command node wrong".
fn entry_wrong(image: &Image, entry: &Entry) -> bool {
    let index = usize::from(entry.index);
    let right = match entry.form {
        VALUE => index < image.looks() && is_constant(image.lookup(index).kind, entry.value),
        UNKNOWN => index < image.looks() && entry.value == 0,
        RETURNED => index < image.nodes() && image.node(index).kind == COMMAND && entry.value == 0,
        _ => false,
    };
    entry.spare != 0 || !right
}

/// A value and Unknown of one index name the same lookup.
fn names_same(a: &Entry, b: &Entry) -> bool {
    a.index == b.index && (a.form == RETURNED) == (b.form == RETURNED)
}

/// "return for a node not Executing or Failing, or marked already".
fn not_awaited(state: &State, entry: &Entry) -> bool {
    let index = usize::from(entry.index);
    entry.form == RETURNED && (!matches!(state.status[index], EXECUTING | FAILING) || state.mark[index] == 1)
}

fn change(image: &Image, state: &mut State, entry: &Entry) {
    let index = usize::from(entry.index);
    match entry.form {
        RETURNED => state.mark[index] = 1,
        UNKNOWN => (state.looktags[index], state.lookbits[index]) = (0, 0),
        _ => {
            state.looktags[index] = image.lookup(index).kind + 1;
            state.lookbits[index] = entry.value;
        }
    }
}
