//! Well-formed text, text that is not, and tables that are nearly all text.

use super::raw;
use crate::random::Random;
use crate::settings::Settings;

/// The longest text of the tables for benchmarks, in units.
pub(super) const LONGEST: usize = 64;

/// Well-formed text of so many units: letters mostly, some at the edges, some pairs.
pub fn text(random: &mut Random, units: usize) -> Vec<u8> {
    const EDGES: [u16; 8] = [0, 0x20, 0xD7FF, 0xE000, 0xFEFF, 0xFFFD, 0xFFFE, 0xFFFF];
    let mut text: Vec<u16> = Vec::with_capacity(units);
    while text.len() < units {
        match random.below(20) {
            0..=1 if text.len() + 2 <= units => text.extend(pair(random)),
            2 => text.push(*random.pick(&EDGES)),
            3..=5 => text.push(random.below(0xD800) as u16),
            _ => text.push(random.between(0x20, 0x7E) as u16),
        }
    }
    text.into_iter().flat_map(u16::to_le_bytes).collect()
}

fn pair(random: &mut Random) -> [u16; 2] {
    let high = *random.pick(&[0xD800, 0xD83D, 0xDBFF]);
    let low = *random.pick(&[0xDC00, 0xDE00, 0xDFFF]);
    [high, low]
}

/// Makes the text malformed, or nearly: a surrogate put in or cut in two, bytes exchanged, one byte more or less.
pub fn spoil(random: &mut Random, text: &mut Vec<u8>) {
    let at = 2 * random.below(text.len() / 2 + 1);
    let surrogate = *random.pick(&[0xD800u16, 0xDBFF, 0xDC00, 0xDFFF]);
    match random.below(8) {
        0 => text.push(random.byte()),
        1 => {
            text.pop();
        }
        2 => text.truncate(at),
        3 if at + 4 <= text.len() => text.swap(at, at + 2),
        4 if at + 4 <= text.len() => text.swap(at + 1, at + 3),
        5 if at + 2 <= text.len() => text.swap(at, at + 1),
        6 if at + 2 <= text.len() => text[at + 1] = *random.pick(&[0xD7, 0xD8, 0xDC, 0xE0]),
        _ => {
            text.splice(at..at, surrogate.to_le_bytes());
        }
    }
}

/// A table of exactly 4,096 bytes and nothing but strings, accepted with any settings.
pub fn texts(random: &mut Random, _: Settings) -> Vec<u8> {
    let mut left = 4_096 - 16;
    let mut elements = Vec::new();
    while left > 0 {
        // Six bytes and the text; what is left behind it is none, or room for one more.
        let units = random.between(LONGEST / 2, LONGEST);
        let length = match left - left.min(6 + 2 * units) {
            0..=5 if left <= 6 + 2 * LONGEST => left,
            0..=5 => left - 6,
            _ => 6 + 2 * units,
        };
        let text = text(random, (length - 6) / 2);
        elements.push(raw::text(elements.len() as u8 + 1, &text));
        left -= length;
    }
    raw::table(&elements)
}
