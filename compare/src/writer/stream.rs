//! Seeded calls without end: the second program's own, random numbers, bent records, whole runs, rewritings.

use super::call::{Does, WriterCall};
use super::rewritings;
use super::runs::{self, noise};
use crate::settings::writing;
use second::element::{fixed_length, id};
use second::generator::{spoil, text, writer_call, What};
use second::numbers::{put_description, put_element, Numbers, CHIP};
use second::random::Random;
use second::Chip;
use std::collections::VecDeque;

pub struct Stream {
    random: Random,
    ready: VecDeque<WriterCall>,
}

impl Stream {
    pub fn new(seed: u64) -> Stream {
        Stream {
            random: Random::new(seed),
            ready: VecDeque::new(),
        }
    }

    pub fn call(&mut self) -> WriterCall {
        loop {
            if let Some(call) = self.ready.pop_front() {
                return call;
            }
            let random = &mut self.random;
            match random.below(100) {
                0..=1 => self.ready.extend(runs::calls(random)),
                2..=39 => self.ready.push_back(of_second(random)),
                40..=64 => self.ready.push_back(bent(random)),
                65 => self.ready.extend(rewritings::calls(random)),
                66..=96 => self.ready.push_back(wild(random)),
                _ => self.ready.push_back(unknown(random)),
            }
        }
    }
}

impl Iterator for Stream {
    type Item = WriterCall;

    fn next(&mut self) -> Option<WriterCall> {
        Some(self.call())
    }
}

/// A call of the second program's generator.
fn of_second(random: &mut Random) -> WriterCall {
    let call = writer_call(random);
    let mut numbers = noise(random);
    let settings = writing(call.chip, random.word());
    match call.what {
        What::Start(record) => {
            put_description(&record, call.pins, &mut numbers);
            WriterCall::start(settings, numbers, call.buffer)
        }
        What::Append(record, part) => {
            put_element(&record, call.pins, &mut numbers);
            WriterCall::append(record.identifier(), settings, numbers, part, call.buffer)
        }
    }
}

/// The numbers that kinds use, and the one that names the chip.
const PLACES: [usize; 19] = [
    0, 1, 2, 3, 4, 5, 6, 7, 8, 9, 10, 11, 12, 13, 14, 15, 16, 17, 31,
];

/// One with a few bytes of its numbers or its part changed.
fn bent(random: &mut Random) -> WriterCall {
    let mut call = of_second(random);
    for _ in 0..random.between(1, 3) {
        let value = near(random);
        if random.chance(80) || call.part.is_empty() {
            call.numbers[*random.pick(&PLACES)] = value;
        } else {
            let at = random.below(call.part.len().min(30));
            call.part[at] = value;
        }
    }
    call
}

fn near(random: &mut Random) -> u8 {
    const EDGES: [u8; 20] = [
        0, 1, 2, 3, 4, 5, 6, 7, 15, 16, 0x11, 0x14, 0x20, 0x23, 0x24, 0x27, 0x30, 127, 128, 255,
    ];
    if random.chance(60) {
        *random.pick(&EDGES)
    } else {
        random.byte()
    }
}

/// Random numbers in all 32 places, a random part, a random length said in a buffer of any size.
fn wild(random: &mut Random) -> WriterCall {
    let edged = random.chance(70);
    let chip = *random.pick(&Chip::BOTH);
    let settings = writing(chip, random.word());
    let mut numbers: Numbers =
        std::array::from_fn(|_| if edged { near(random) } else { random.byte() });
    if chip == Chip::F320 && random.chance(70) {
        numbers[CHIP] = 0;
    }
    if random.chance(20) {
        let size = size(random, 16);
        return WriterCall::start(settings, numbers, random.bytes(size));
    }
    let id = *random.pick(&id::ALL);
    let part = part(id, random);
    let needed = fixed_length(id) + part.len();
    let size = size(random, 16 + needed);
    let buffer = lent(size, needed, random);
    WriterCall::append(id, settings, numbers, part, buffer)
}

fn size(random: &mut Random, enough: usize) -> usize {
    match random.below(20) {
        0 => random.below(16),
        1 => random.between(4_080, 4_110),
        2 => random.between(16, 5_000),
        3..=6 => (enough + random.below(3)).saturating_sub(1).min(70_000),
        _ => (enough + random.below(200)).min(70_000),
    }
}

/// Junk, whose bytes 1-2 say a length that is mostly one that can be.
fn lent(size: usize, needed: usize, random: &mut Random) -> Vec<u8> {
    let mut buffer = random.bytes(size);
    let said = match random.below(12) {
        0 => random.below(65_536),
        1 => random.below(20),
        2 => size + random.below(3),
        3 => (size + random.below(3)).saturating_sub(needed + 1),
        4 => (4_096 + random.below(3)).saturating_sub(needed + 1),
        5..=7 => random.between(16, size.max(16)),
        _ => 16,
    };
    if size >= 3 {
        buffer[1..3].copy_from_slice(&(said as u16).to_le_bytes());
    }
    buffer
}

fn part(id: u8, random: &mut Random) -> Vec<u8> {
    let length = match random.below(40) {
        0 => random.between(4_060, 4_100),
        1 if random.chance(20) => random.between(65_500, 65_560),
        2..=15 => random.below(71),
        _ => return likely(id, random),
    };
    let mut part = random.bytes(length);
    for byte in part.iter_mut().take(8) {
        *byte = near(random);
    }
    part
}

/// A part of the sort that the kind has, or nearly.
fn likely(id: u8, random: &mut Random) -> Vec<u8> {
    match id {
        id::CONTROLLER => {
            let count = random.below(8);
            (0..count)
                .flat_map(|_| [vec![random.byte()], pairs(random)].concat())
                .collect()
        }
        id::TACHOMETER => [pairs(random), pairs(random)].concat(),
        id::EXTERNAL_RGB => [pairs(random), pairs(random), pairs(random)].concat(),
        id::TEXT => {
            let mut body = random.bytes(3);
            let units = random.below(40);
            let mut text = text(random, units);
            if random.chance(30) {
                spoil(random, &mut text);
            }
            body.extend(text);
            body
        }
        id::ZONE => random.bytes(27),
        _ => Vec::new(),
    }
}

/// ENTRIES, seldom 0, and so many register pairs.
fn pairs(random: &mut Random) -> Vec<u8> {
    let entries = *random.pick(&[0, 1, 1, 1, 2, 2, 3, 4]);
    let mut bytes = vec![entries as u8];
    bytes.extend(random.bytes(4 * entries));
    bytes
}

/// An identifier of no kind, or any at all.
fn unknown(random: &mut Random) -> WriterCall {
    let mut call = of_second(random);
    call.does = Does::Append(if random.chance(50) {
        *random.pick(&[0, 15, 16, 21, 22, 23, 29, 255])
    } else {
        random.byte()
    });
    call
}
