//! Calls of the writer: records good and bad, buffers of every awkward size.

use super::raw;
use super::records::{good_element, some_description, some_element};
use super::valid::valid;
use crate::element::fixed_length;
use crate::random::Random;
use crate::record::{Description, Element, Text};
use crate::settings::Chip;

/// What the writer is asked to do.
#[derive(Clone, Debug, PartialEq, Eq)]
pub enum What {
    Start(Description),
    Append(Element, Vec<u8>),
}

/// One call: the chip it is told, the buffer as lent, and the request.
#[derive(Clone, Debug, PartialEq, Eq)]
pub struct WriterCall {
    pub chip: Chip,
    /// The chip of all used pins in the record.
    pub pins: Chip,
    pub buffer: Vec<u8>,
    pub what: What,
}

/// A call of start or append of any sort, now and then with pins of the other chip.
pub fn writer_call(random: &mut Random) -> WriterCall {
    let chip = *random.pick(&Chip::BOTH);
    let pins = if random.chance(15) {
        chip.other()
    } else {
        chip
    };
    let (buffer, what) = match random.below(20) {
        0..=3 => start_call(random, pins),
        4..=9 => onto_a_table(random, pins),
        10 => long_string(random),
        _ => onto_any_buffer(random, pins),
    };
    WriterCall {
        chip,
        pins,
        buffer,
        what,
    }
}

/// A start into a buffer around 16 bytes or far longer, full of junk.
fn start_call(random: &mut Random, pins: Chip) -> (Vec<u8>, What) {
    let length = match random.below(4) {
        0 => random.below(18),
        1 => 16,
        2 => *random.pick(&[4095, 4096, 4097, 70_000]),
        _ => random.between(16, 300),
    };
    let buffer = random.bytes(length);
    (buffer, What::Start(some_description(random, pins)))
}

/// A good element onto an accepted table with room enough, or not quite.
fn onto_a_table(random: &mut Random, pins: Chip) -> (Vec<u8>, What) {
    let mut buffer = valid(random, pins.into());
    let (element, part) = if random.chance(50) {
        good_element(random, pins)
    } else {
        some_element(random, pins)
    };
    let needed = fixed_length(element.identifier()) + part.len();
    let room = match random.below(6) {
        0 => 0,
        1 => needed - 1,
        2 => needed,
        3 => needed + 1,
        4 => random.below(needed),
        _ => needed + random.below(100),
    };
    let junk = random.bytes(room);
    buffer.extend(junk);
    (buffer, What::Append(element, part))
}

/// Junk with any length field: under 16, over 4,096, past the buffer, or just where it matters.
fn onto_any_buffer(random: &mut Random, pins: Chip) -> (Vec<u8>, What) {
    let (element, part) = some_element(random, pins);
    let needed = fixed_length(element.identifier()) + part.len();
    let sizes = [0, 1, 2, 3, 15, 16, 17, 100, 1000, 4095, 4096, 4097, 4200];
    let size = match random.below(3) {
        0 => *random.pick(&sizes),
        1 => 16 + needed + random.below(3),
        _ => random.below(600),
    };
    let mut buffer = random.bytes(size);
    let end = *random.pick(&[size, 4096]);
    let so_far = match random.below(9) {
        0 => random.below(16),
        1 => 16,
        2 => size,
        3 => size + 1,
        4 => *random.pick(&[4095, 4096, 4097, 65_535]),
        5 => end.saturating_sub(needed),
        6 => (end + 1).saturating_sub(needed),
        7 => random.between(16, 4096),
        _ => random.below(size + 1),
    };
    if size >= 3 {
        buffer[1..3].copy_from_slice(&(so_far as u16).to_le_bytes());
    }
    (buffer, What::Append(element, part))
}

/// A string around 4,096 bytes, or around the end of a two-byte length: 16, and no sum may wrap.
fn long_string(random: &mut Random) -> (Vec<u8>, What) {
    let lengths = [
        4076, 4077, 4078, 4079, 65_519, 65_532, 65_533, 65_535, 65_537, 65_552, 65_553,
    ];
    let mut part = vec![0x41; *random.pick(&lengths)];
    part[0] = *random.pick(&[0, 1, 1, 1]);
    let mut buffer = raw::TABLE_A.to_vec();
    buffer.resize(*random.pick(&[16, 4095, 4096, 4097, 66_000, 70_000]), 0xA5);
    (buffer, What::Append(Element::Text(Text), part))
}
