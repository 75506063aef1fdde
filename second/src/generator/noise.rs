//! Random bytes, and random bytes behind sensible headers.

use super::raw;
use crate::element::{fixed_length, id};
use crate::random::Random;

/// Bytes without any sense, sometimes with a good first byte and length.
pub fn random_bytes(random: &mut Random) -> Vec<u8> {
    let length = *random.pick(&[0, 15, 16, 17, 30, 60, 200, 1000, 4096, 5000]);
    let mut table = vec![0; random.between(0, length)];
    for byte in &mut table {
        *byte = random.byte();
    }
    if !table.is_empty() && random.chance(60) {
        table[0] = 1;
        raw::mend(&mut table);
    }
    table
}

/// A good description, then headers that fit with bodies of chance.
pub fn structured(random: &mut Random) -> Vec<u8> {
    let mut table = raw::TABLE_A.to_vec();
    if random.chance(20) {
        table[9] = random.byte();
    }
    for _ in 0..random.below(12) {
        table.extend(likely(random));
    }
    if random.chance(70) {
        for zone in 0..random.below(4) {
            table.extend(raw::zone(zone as u8, 0));
        }
    }
    raw::mend(&mut table);
    table
}

/// An element whose bytes are drawn from those that mean something somewhere.
pub(super) fn likely(random: &mut Random) -> Vec<u8> {
    let identifier = *random.pick(&id::ALL);
    let length = match identifier {
        id::ZONE => 30,
        id::TEXT if random.chance(80) => 6 + 2 * random.below(3),
        id::TEXT => 6 + random.below(6),
        id::CONTROLLER => 17 + 6 * random.below(2),
        id::TACHOMETER => 14 + 4 * random.below(3),
        id::EXTERNAL_RGB => 15 + 4 * random.below(4),
        _ => fixed_length(identifier),
    };
    const BYTES: [u8; 23] = [
        0, 0, 0, 0, 1, 1, 1, 2, 3, 3, 5, 6, 0x11, 0x12, 0x13, 0x14, 0x15, 0x20, 0x23, 0x24, 0x27,
        0x30, 0xFF,
    ];
    let mut body: Vec<u8> = (0..length - 3).map(|_| *random.pick(&BYTES)).collect();
    if identifier == id::TEXT && random.chance(30) {
        // The high byte of some unit.
        if let Some(high) = body.get_mut(4 + 2 * random.below(2)) {
            *high = *random.pick(&[0xD7, 0xD8, 0xDB, 0xDC, 0xDF, 0xE0]);
        }
    }
    if identifier != id::TEXT && identifier != id::ZONE {
        body[0] = 0;
        body[4] = random.below(3) as u8;
    }
    if identifier == id::CONTROLLER && random.chance(80) {
        // The ENTRIES bytes of one block, or two, of one pair each.
        for at in [9, 15] {
            if let Some(entries) = body.get_mut(at) {
                *entries = 1;
            }
        }
    }
    raw::element(identifier, &body)
}
