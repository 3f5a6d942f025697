//! Damage: bit flips, changed fields and lengths, for bytes, states and cards.

use crate::random::Random;
use samblokur_sys::{Card, State};

/// Damages bytes of any sort.
pub fn bytes(random: &mut Random, bytes: &mut Vec<u8>) {
    let at = random.below(bytes.len());
    match random.below(5) {
        0 => bytes.truncate(at),
        1 => bytes.extend(vec![random.byte(255); 1 + random.below(30)]),
        _ if bytes.is_empty() => {}
        2 => bytes[at] = random.byte(255),
        _ => bytes[at] ^= 1 << random.below(8),
    }
}

/// Damages the header of an image: a field one off, or its length below the header's.
pub fn header(random: &mut Random, image: &mut Vec<u8>) {
    if random.chance(20) {
        return image.truncate(random.below(25));
    }
    let at = 2 * random.below(10);
    if let Some(field) = image.get_mut(at..at + 2) {
        let number = u16::from_le_bytes([field[0], field[1]]);
        let change = random.pick(&[1, u16::MAX, 300, 2048, 1 << 15]);
        field.copy_from_slice(&number.wrapping_add(change).to_le_bytes());
    }
}

/// Damages a state in one place, mostly among the first nodes and cells.
pub fn state(random: &mut Random, state: &mut State) {
    let end = random.pick(&[1, 4, 16, 64]);
    let at = random.below(end);
    match random.below(9) {
        0 | 1 => state.status[at] = random.byte(9),
        2 => state.outcome[at] = random.byte(6),
        3 => state.failure[at] = random.byte(8),
        4 => state.mark[at] ^= 1 + random.byte(2),
        5 => state.vartags[at] = random.byte(5),
        6 => state.varbits[at] ^= 1 << random.below(64),
        7 => state.looktags[at] = random.byte(5),
        _ => state.lookbits[at] = random.pick(&[0, 1, 2, 0x7FF0_0000_0000_0000, u64::MAX]),
    }
}

/// Damages a card.
pub fn card(random: &mut Random, card: &mut Card) {
    match random.below(3) {
        0 => card.serial = card.serial.wrapping_add(1),
        1 => card.phase ^= 1,
        _ => card.phase = random.pick(&[2, 256, u32::MAX]),
    }
}
