//! Files as a damaged flash chip gives them: much of a table, and much that is wrong with it at once.

use super::noise::likely;
use super::raw::{self, Parts};
use super::valid::valid_parts;
use crate::element::id;
use crate::pins;
use crate::random::Random;
use crate::settings::{Rules, Settings};

/// A file of some sort; what is good in it is good on the chip of the settings.
pub fn wrecked(random: &mut Random, settings: Settings) -> Vec<u8> {
    let mut file = match random.below(12) {
        0..=1 => flipped(random, settings),
        2 => filled(random, settings),
        3..=5 => jumbled(random, settings),
        6..=7 => crowded(random),
        8..=9 => row_of_small_ones(random),
        10 => headers(random),
        _ => noise(random),
    };
    if random.chance(15) {
        lengthened(random, &mut file);
    }
    if random.chance(10) {
        file.truncate(random.below(file.len() + 1));
    }
    if random.chance(60) {
        raw::mend(&mut file);
    }
    if random.chance(12) {
        spoil_description(random, &mut file);
    }
    file
}

/// Some bits of a good table, mostly behind the description.
fn flipped(random: &mut Random, settings: Settings) -> Vec<u8> {
    let mut file = valid_parts(random, settings).bytes();
    let from = *random.pick(&[0, 16, 16, 16, 16]);
    if file.len() > from {
        for _ in 0..random.between(1, 2 + file.len() / 40) {
            let at = random.between(from, file.len() - 1);
            file[at] ^= 1 << random.below(8);
        }
    }
    file
}

/// A stretch of a good table is FFh or 00h, as of a page that was wiped.
fn filled(random: &mut Random, settings: Settings) -> Vec<u8> {
    let mut file = valid_parts(random, settings).bytes();
    if file.len() > 16 {
        let from = random.between(16, file.len() - 1);
        let most = *random.pick(&[1, 2, 4, 16, 64, 4096]);
        let to = (from + random.between(1, most)).min(file.len());
        file[from..to].fill(*random.pick(&[0xFF, 0x00]));
    }
    file
}

/// The elements of up to four tables, shuffled, some of them doubled or gone: numbers repeated, zones and strings missing, pins
/// claimed by several, and of tables of the archive block mode.
fn jumbled(random: &mut Random, settings: Settings) -> Vec<u8> {
    let mut parts = valid_parts(random, settings);
    for _ in 0..random.below(4) {
        let rules = *random.pick(&Rules::BOTH);
        let more = valid_parts(random, Settings::new(settings.chip, rules));
        parts.elements.extend(more.elements);
    }
    if random.chance(80) {
        random.shuffle(&mut parts.elements);
    }
    let gone = *random.pick(&[0, 0, 10, 40]);
    parts.elements.retain(|_| !random.chance(gone));
    for _ in 0..random.below(4) {
        if !parts.elements.is_empty() {
            let again = random.pick(&parts.elements).clone();
            parts.elements.push(again);
        }
    }
    if random.chance(30) {
        parts.description[4] = random.byte();
    }
    parts.bytes()
}

/// Devices on any pins in a few zones, of which not all are there.
fn crowded(random: &mut Random) -> Vec<u8> {
    let mut parts = Parts::of(&[]);
    for at in 9..12 {
        if random.chance(15) {
            parts.description[at] = *random.pick(&pins::ALL);
        }
    }
    for _ in 0..random.between(1, 40) {
        let element = match random.chance(40) {
            true => likely(random),
            false => claimant(random),
        };
        parts.elements.push(element);
    }
    for zone in 0..random.below(4) {
        let at = random.below(parts.elements.len() + 1);
        let string = random.below(3) as u8;
        parts.elements.insert(at, raw::zone(zone as u8, string));
    }
    parts.bytes()
}

/// A device of any kind that claims pins, mostly such as its kind may claim.
fn claimant(random: &mut Random) -> Vec<u8> {
    let zone = random.below(4) as u8;
    let pin = *random.pick(&pins::ALL);
    let analogue = *random.pick(&pins::ANALOGUE);
    let select = *random.pick(&pins::CHIP_SELECT);
    let [one, two] = [(); 2].map(|()| *random.pick(&pins::FAN_LIST));
    let mut lights = [(); 3].map(|()| *random.pick(&pins::STATUS_LED));
    if random.chance(50) {
        lights[1] = *random.pick(&[0xFF, pin, lights[0]]);
    }
    let bus = *random.pick(&[0, 1, 2, 3, 3]);
    let address = if bus == 3 { select } else { random.byte() };
    let mut element = match random.below(12) {
        0 => raw::digital(zone, bus, address),
        1 => raw::analogue(zone, analogue),
        2 => raw::fan(zone, one, *random.pick(&[0xFF, two])),
        3 => raw::pump(zone, one, *random.pick(&[0xFF, two])),
        4 => raw::led(zone, lights),
        5 => raw::water(zone, analogue),
        6 => raw::voltage(zone, analogue),
        7 => raw::current(zone, *random.pick(&[analogue, pin])),
        8 => raw::controller(zone, bus, address, &[1]),
        9 => raw::tachometer(zone, bus, address, 0, 1),
        10 => raw::external(zone, bus, address, [0, 1, 0]),
        _ => raw::rgb(zone, one, two, 0x13),
    };
    element[3] = *random.pick(&[0, 0, 1, 2]);
    element
}

/// Eighty elements and more, each of a few bytes: strings, zones, dark lamps, and what is none.
fn row_of_small_ones(random: &mut Random) -> Vec<u8> {
    let bad = *random.pick(&[0, 1, 10, 50]);
    let zones = *random.pick(&[1, 12, 13, 14, 20]);
    let mut elements: Vec<Vec<u8>> = (0..zones).map(|zone| raw::zone(zone, 0)).collect();
    for at in 0..random.between(80, 220) {
        let number = (at % 255 + 1) as u8;
        let small = match random.below(10) {
            0..=1 => raw::led(random.below(16) as u8, [0xFF; 3]),
            _ if random.chance(bad) => {
                raw::element(*random.pick(&[0x00, 0x10, id::CURRENT, id::ZONE]), &[])
            }
            _ => raw::text(number, &[]),
        };
        elements.push(small);
    }
    let sorted = random.chance(30);
    if !sorted {
        random.shuffle(&mut elements);
    }
    raw::table(&elements)
}

/// Headers alone, most of them of no kind: a line for each.
fn headers(random: &mut Random) -> Vec<u8> {
    let mut file = raw::TABLE_A.to_vec();
    let most = *random.pick(&[1, 20, 300, 1360, 1361]);
    let some = random.between(1, most);
    for _ in 0..*random.pick(&[most, some]) {
        let identifier = *random.pick(&[0x00, 0x0F, 0xFF, 0x0C, 0x80]);
        file.extend([identifier, 3, 0]);
    }
    if random.chance(50) {
        file.extend(raw::zone(1, 0));
    }
    file
}

/// A good description, and then bytes of chance; a small high byte makes some of them elements.
fn noise(random: &mut Random) -> Vec<u8> {
    let mut file = raw::TABLE_A.to_vec();
    while file.len() < 200 && random.chance(95) {
        let identifier = random.between(0, 16) as u8;
        let length = random.between(3, 40);
        file.extend([identifier, length as u8, 0]);
        file.extend(random.bytes(length - 3));
    }
    let count = random.below(300);
    file.extend(random.bytes(count));
    file
}

/// Around 4,096 bytes and well past them: what stands there is not looked at.
fn lengthened(random: &mut Random, file: &mut Vec<u8>) {
    let length = *random.pick(&[4_095, 4_096, 4_097, 4_100, 4_200, 5_000, 9_000]);
    let fill = *random.pick(&[0x00, 0xFF]);
    match random.below(3) {
        0 => file.resize(length.max(file.len()), fill),
        1 => {
            let count = length.saturating_sub(file.len());
            file.extend(random.bytes(count));
        }
        _ => while_short(file, length, random),
    }
}

/// Good strings and lamps up to this length and across it.
fn while_short(file: &mut Vec<u8>, length: usize, random: &mut Random) {
    while file.len() < length {
        let count = 2 * random.below(60);
        let text = vec![0x41; count];
        file.extend(raw::text(random.byte(), &text));
    }
}

/// One thing that is wrong with the description, or its string index alone.
fn spoil_description(random: &mut Random, file: &mut Vec<u8>) {
    if file.len() < 16 {
        return;
    }
    match random.below(8) {
        0 => file.truncate(random.below(16)),
        1 => file[0] = random.byte(),
        2 => file[3] = random.byte(),
        3 => file[8] = *random.pick(&[0x7E, 0x7F]),
        4 => file[random.between(9, 11)] = random.byte(),
        5 => file[random.between(9, 11)] = 0x10,
        6 => {
            let pin = *random.pick(&pins::ALL);
            file[9] = pin;
            file[random.between(10, 11)] = pin;
        }
        _ => file[4] = random.byte(),
    }
}
