//! Tables that were good, changed at a few bytes or cut short.

use super::raw::{self, Parts};
use super::valid::valid_parts;
use crate::random::Random;
use crate::settings::Settings;

/// Codes, block mode with its reserved bits clear and set, and pins of every use and around the four.
const TELLING: [u8; 16] = [
    0, 1, 2, 3, 5, 6, 0x10, 0x11, 0x14, 0x22, 0x23, 0x24, 0x27, 0x30, 0xEE, 0xF2,
];

/// A good table after one to four changes.
pub fn mutated(random: &mut Random, settings: Settings) -> Vec<u8> {
    let mut parts = valid_parts(random, settings);
    if random.chance(30) {
        rearranged(random, &mut parts);
    }
    let starts = starts(&parts);
    let mut table = parts.bytes();
    for _ in 0..random.between(1, 4) {
        change(random, &mut table, &starts);
    }
    table
}

/// The offset of each element.
fn starts(parts: &Parts) -> Vec<usize> {
    let mut at = 16;
    let mut starts = Vec::new();
    for element in &parts.elements {
        starts.push(at);
        at += element.len();
    }
    starts
}

/// Elements in another order, one more time, or one fewer.
fn rearranged(random: &mut Random, parts: &mut Parts) {
    if parts.elements.is_empty() {
        return;
    }
    let at = random.below(parts.elements.len());
    match random.below(3) {
        0 => random.shuffle(&mut parts.elements),
        1 => parts.elements.push(parts.elements[at].clone()),
        _ => {
            parts.elements.remove(at);
        }
    }
}

/// One byte changed, mostly where rules look.
fn change(random: &mut Random, table: &mut Vec<u8>, starts: &[usize]) {
    let place = match random.below(10) {
        0 => random.below(16),
        1..=2 => random.below(table.len()),
        _ if starts.is_empty() => random.below(16),
        _ => *random.pick(starts) + *random.pick(&[0, 1, 2, 3, 7, 8, 8, 9, 9, 10, 11, 12, 13]),
    };
    let Some(old) = table.get(place).copied() else {
        return;
    };
    match random.below(12) {
        0 => table.insert(place, old),
        1 => {
            table.remove(place);
        }
        2..=4 => table[place] = random.byte(),
        5..=6 => table[place] ^= 1 << random.below(8),
        7 => table[place] = old.wrapping_add(1),
        8 => table[place] = old.wrapping_sub(1),
        9 => table[place] = 0xFF,
        _ => table[place] = *random.pick(&TELLING),
    }
    if random.chance(70) {
        raw::mend(table);
    }
}

/// A good table cut short, with and without its length mended.
pub fn truncated(random: &mut Random, settings: Settings) -> Vec<u8> {
    let mut table = valid_parts(random, settings).bytes();
    let length = if random.chance(30) {
        random.below(18.min(table.len()))
    } else {
        random.below(table.len())
    };
    table.truncate(length);
    if random.chance(75) {
        raw::mend(&mut table);
    }
    table
}
