//! Parts of 09h, 0Ah and 0Dh, whole, damaged and random, and what is asked of each.

use super::reading::Reading;
use crate::comparison::HUGE;
use second::blocks::{colour_block, register_block, speed_block, Pairs};
use second::generator::raw;
use second::random::Random;

/// Every speed block and every pair of it, and one past each; some that no part has.
pub fn speed_readings(part: &[u8]) -> Vec<Reading> {
    let huge = HUGE[part.len() % HUGE.len()];
    let mut list = vec![
        Reading::Block(huge),
        Reading::Pair(huge, 0),
        Reading::Pair(0, huge),
    ];
    for j in 0.. {
        list.push(Reading::Block(j));
        let block = speed_block(part, j as usize);
        let entries = block.map_or(0, |block| block.pairs.entries());
        list.extend((0..=u64::from(entries)).map(|i| Reading::Pair(j, i)));
        if block.is_none() {
            break;
        }
    }
    list
}

/// Both register blocks and every pair of them, and one past each; some that no part has.
pub fn register_readings(part: &[u8]) -> Vec<Reading> {
    let blocks: [_; 3] = std::array::from_fn(|w| register_block(part, w));
    of_blocks(part, blocks, Reading::Entries, Reading::Entry)
}

/// The same of the three colours.
pub fn colour_readings(part: &[u8]) -> Vec<Reading> {
    let blocks: [_; 4] = std::array::from_fn(|w| colour_block(part, w));
    of_blocks(part, blocks, Reading::Colours, Reading::Colour)
}

fn of_blocks<const COUNT: usize>(
    part: &[u8],
    blocks: [Option<Pairs>; COUNT],
    whole: fn(u64) -> Reading,
    pair: fn(u64, u64) -> Reading,
) -> Vec<Reading> {
    let huge = HUGE[part.len() % HUGE.len()];
    let mut list = vec![whole(huge), pair(huge, 0), pair(0, huge)];
    for (w, block) in blocks.into_iter().enumerate() {
        list.push(whole(w as u64));
        let entries = block.map_or(0, Pairs::entries);
        list.extend((0..=u64::from(entries)).map(|i| pair(w as u64, i)));
    }
    list
}

/// All six calls on any bytes; one more block behind the last is asked for too, as it might be read
/// across the gap.
pub fn all_readings(part: &[u8]) -> Vec<Reading> {
    let mut list = speed_readings(part);
    if let Some(Reading::Pair(past, _)) = list.last().copied() {
        list.extend([1, 2].map(|i| Reading::Pair(past, i)));
        list.extend([Reading::Block(past + 1), Reading::Pair(past + 1, 0)]);
    }
    list.extend(register_readings(part));
    list.extend([0, 1].map(|w| Reading::Entry(w, 1)));
    list.extend(colour_readings(part));
    list.extend([0, 1, 2].map(|w| Reading::Colour(w, 1)));
    list
}

/// A part of any sort; `own` is one that stood in a table, if there is any.
pub fn some(own: Option<&[u8]>, random: &mut Random) -> Vec<u8> {
    let mut part = match (own, random.below(4)) {
        (Some(own), 0..=1) => own.to_vec(),
        (_, 0..=2) => {
            let count = random.below(8);
            (0..count).flat_map(|_| piece(random)).collect()
        }
        _ => {
            let length = random.below(40);
            (0..length).map(|_| small(random)).collect()
        }
    };
    for _ in 0..random.below(3) {
        damage(&mut part, random);
    }
    part
}

/// ENTRIES and so many pairs, mostly with a SPEED before them.
fn piece(random: &mut Random) -> Vec<u8> {
    let entries = *random.pick(&[0, 1, 1, 2, 2, 3, 5]);
    let speed = usize::from(random.chance(70));
    let mut bytes = random.bytes(speed);
    bytes.push(entries as u8);
    bytes.extend(random.bytes(4 * entries));
    bytes
}

fn small(random: &mut Random) -> u8 {
    match random.below(8) {
        0 => random.byte(),
        1 => 0xFF,
        _ => random.below(5) as u8,
    }
}

/// Cut short, made longer, or a byte changed.
fn damage(part: &mut Vec<u8>, random: &mut Random) {
    match random.below(3) {
        0 => part.truncate(random.below(part.len() + 1)),
        1 => part.push(small(random)),
        _ if part.is_empty() => (),
        _ => {
            let at = random.below(part.len());
            part[at] = small(random);
        }
    }
}

/// Parts at the ends: empty, cut at every byte, the most ENTRIES, longer than two bytes can say.
pub fn edges() -> Vec<Vec<u8>> {
    let blocks = [raw::block(5, 2), raw::block(6, 0), raw::block(7, 1)].concat();
    let mut list: Vec<Vec<u8>> = (0..=blocks.len())
        .map(|end| blocks[..end].to_vec())
        .collect();
    let full = raw::block(9, 255);
    let registers = [&full[1..], &full[1..]].concat();
    let colours = [&registers, &full[1..]].concat();
    for part in [full.clone(), registers, colours] {
        for end in [part.len() - 1, part.len()] {
            list.push(part[..end].to_vec());
        }
        list.push([&part[..], &[1]].concat());
    }
    // Three colours, cut at every byte, and a fourth behind them.
    let colours = &raw::external(1, 0, 0x40, [1, 0, 2])[12..];
    list.extend((0..=colours.len()).map(|end| colours[..end].to_vec()));
    list.push([colours, &[1, 9, 9, 9, 9]].concat());
    list.extend([vec![0; 3], vec![0xFF; 3], vec![0; 4_096], vec![0xFF; 4_096]]);
    // Its last blocks stand past 65,536 bytes.
    list.push([full.repeat(65), blocks].concat());
    list
}
