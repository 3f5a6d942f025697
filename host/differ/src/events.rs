//! Random events: right ones for a state, and ones with a thing wrong.

use crate::draft::Draft;
use crate::random::Random;
use samblokur_sys::{Card, State};

const VALUE: u8 = 0;
const UNKNOWN: u8 = 1;
const RETURNED: u8 = 2;

#[derive(Clone, Copy)]
struct Entry {
    form: u8,
    spare: u8,
    index: u16,
    value: u64,
}

/// An event that a quiet plan in this state accepts.
pub fn right(random: &mut Random, draft: &Draft, state: &State, card: &Card) -> Vec<u8> {
    bytes(card.serial, &entries(random, draft, state))
}

/// An event with one thing wrong, or nearly.
pub fn wrong(random: &mut Random, draft: &Draft, state: &State, card: &Card) -> Vec<u8> {
    let mut entries = entries(random, draft, state);
    let at = random.below(entries.len());
    match random.below(7) {
        0 => return bytes(card.serial.wrapping_add(random.pick(&[1, u32::MAX, 256])), &entries),
        1 => return misshapen(random, bytes(card.serial, &entries)),
        2 => entries.insert(at, stranger(random, draft)),
        3 if !entries.is_empty() => entries.push(again(random, entries[at])),
        4 | 5 => entries.push(unawaited(random, draft)),
        _ => entries.extend(entries.get(at).copied().map(|entry| spoilt(random, entry))),
    }
    bytes(card.serial, &entries)
}

/// Some lookups, each once, and some of the returns awaited.
fn entries(random: &mut Random, draft: &Draft, state: &State) -> Vec<Entry> {
    let mut entries = Vec::new();
    for (l, lookup) in draft.looks.iter().enumerate() {
        let index = l as u16;
        match random.below(10) {
            0..5 => {
                entries.push(Entry { form: VALUE, spare: 0, index, value: random.constant(lookup.kind) });
            }
            5 => entries.push(Entry { form: UNKNOWN, spare: 0, index, value: 0 }),
            _ => {}
        }
    }
    for i in 0..draft.nodes.len() {
        let awaited = draft.nodes[i].body == 1 && matches!(state.status[i], 2 | 4) && state.mark[i] == 0;
        if awaited && random.chance(60) && entries.len() < 128 {
            entries.push(Entry { form: RETURNED, spare: 0, index: i as u16, value: 0 });
        }
    }
    entries
}

/// An entry with random fields near the limits.
fn stranger(random: &mut Random, draft: &Draft) -> Entry {
    let (looks, nodes) = (draft.looks.len() as u16, draft.nodes.len() as u16);
    let any = random.half(nodes);
    let index = random.pick(&[looks, nodes, 0, 65535, any]);
    let value = random.pick(&[0, 1, 2, 0x7FF0_0000_0000_0000]);
    Entry { form: random.byte(4), spare: 0, index, value }
}

/// The same lookup or node named twice.
fn again(random: &mut Random, entry: Entry) -> Entry {
    match entry.form {
        VALUE if random.chance(50) => Entry { form: UNKNOWN, value: 0, ..entry },
        _ => entry,
    }
}

/// A return of any command, awaited or not.
fn unawaited(random: &mut Random, draft: &Draft) -> Entry {
    let commands: Vec<u16> =
        (0..draft.nodes.len() as u16).filter(|&i| draft.nodes[usize::from(i)].body == 1).collect();
    let index = if commands.is_empty() { 0 } else { random.pick(&commands) };
    Entry { form: RETURNED, spare: 0, index, value: 0 }
}

fn spoilt(random: &mut Random, entry: Entry) -> Entry {
    match random.below(3) {
        0 => Entry { spare: 1, ..entry },
        1 => Entry { form: random.byte(5), ..entry },
        _ => Entry { value: random.bits(), ..entry },
    }
}

fn misshapen(random: &mut Random, mut event: Vec<u8>) -> Vec<u8> {
    match random.below(5) {
        0 => event.push(0),
        1 => event.truncate(random.below(event.len())),
        2 => event[4] = event[4].wrapping_add(1),
        3 => event[6 + random.below(2)] = 1,
        _ => event.resize(8 + 12 * 129, 0),
    }
    event
}

fn bytes(serial: u32, entries: &[Entry]) -> Vec<u8> {
    let mut bytes = serial.to_le_bytes().to_vec();
    bytes.extend((entries.len() as u16).to_le_bytes());
    bytes.extend([0; 2]);
    for entry in entries {
        bytes.extend([entry.form, entry.spare]);
        bytes.extend(entry.index.to_le_bytes());
        bytes.extend(entry.value.to_le_bytes());
    }
    bytes
}
