//! Good records to start from, and buffers of junk.

use super::call::WriterCall;
use crate::settings::writing;
use second::element::{fixed_length, read_description, read_element};
use second::generator::raw;
use second::numbers::{put_description, put_element, Numbers};
use second::Chip;

/// Where calls go to; it may stop the work.
pub type Sink<'s> = &'s mut dyn FnMut(WriterCall) -> Result<(), String>;

/// What stands in the bytes of the numbers that a record does not use.
const UNUSED: u8 = 0x5A;

/// A record's numbers with its part, its pins on a chip.
#[derive(Clone)]
pub struct Sample {
    pub chip: Chip,
    pub id: u8,
    pub numbers: Numbers,
    pub part: Vec<u8>,
}

impl Sample {
    fn of(bytes: &[u8], chip: Chip) -> Sample {
        let (element, part) = read_element(bytes, chip).expect("a whole element");
        let mut numbers = [UNUSED; 32];
        put_element(&element, chip, &mut numbers);
        Sample {
            chip,
            id: bytes[0],
            numbers,
            part: part.to_vec(),
        }
    }

    /// The length that the element has.
    pub fn needed(&self) -> usize {
        fixed_length(self.id) + self.part.len()
    }

    /// Told the chip of its pins; the size of the buffer says with which ignored bits.
    pub fn call(&self, buffer: Vec<u8>) -> WriterCall {
        let settings = writing(self.chip, buffer.len() as u64);
        WriterCall::append(self.id, settings, self.numbers, self.part.clone(), buffer)
    }

    /// Appended to a description alone, with room and five bytes more.
    pub fn with_room(&self) -> WriterCall {
        self.call(junk(16 + self.needed() + 5, 16))
    }
}

/// All fourteen kinds, some in two forms, good on this chip.
pub fn elements(chip: Chip) -> Vec<Sample> {
    // The last pin of port 2.
    let last_of_port = match chip {
        Chip::F320 => 0x27,
        Chip::F321 => 0x23,
    };
    let list = [
        raw::digital(1, 0, 0x40),
        raw::digital(2, 3, 0x14),
        raw::analogue(1, 0x20),
        raw::fan(1, 0x05, 0x11),
        raw::led(1, [0x14, 0x02, 0x30]),
        raw::led(1, [0xFF, last_of_port, 0xFF]),
        raw::current(1, 0x21),
        raw::controller(1, 1, 0x80, &[1, 2]),
        raw::controller(1, 3, 0x15, &[1; 6]),
        raw::tachometer(1, 1, 0x40, 1, 0),
        raw::tachometer(1, 3, 0x16, 2, 1),
        raw::rgb(1, 0x05, 0x06, 0x12),
        raw::water(1, 0x17),
        raw::pump(1, 0x06, 0x12),
        raw::voltage(1, 0x22),
        raw::external(1, 0, 0x40, [1, 0, 2]),
        raw::external(1, 3, 0x13, [0; 3]),
        raw::text(1, b"xy"),
        raw::zone(1, 0),
    ];
    list.iter().map(|bytes| Sample::of(bytes, chip)).collect()
}

pub fn description(chip: Chip) -> Numbers {
    let mut numbers = [UNUSED; 32];
    put_description(&read_description(&raw::TABLE_A, chip), chip, &mut numbers);
    numbers
}

/// A buffer of junk whose bytes 1-2, if it has them, say this length.
pub fn junk(size: usize, said: usize) -> Vec<u8> {
    let mut buffer: Vec<u8> = (0..size).map(|at| (at * 73 + 41) as u8).collect();
    if size >= 3 {
        buffer[1..3].copy_from_slice(&(said as u16).to_le_bytes());
    }
    buffer
}

#[cfg(test)]
mod tests {
    use super::*;

    #[test]
    fn all_samples_are_good() {
        for sample in Chip::BOTH.into_iter().flat_map(elements) {
            let new_length = 16 + sample.needed() as u64;
            assert_eq!(
                sample.with_room().second().answer.0,
                256 * new_length,
                "{}",
                sample.id
            );
        }
        for chip in Chip::BOTH {
            let start = WriterCall::start(writing(chip, 0), description(chip), junk(16, 0));
            assert_eq!(start.second().answer.0, 256 * 16);
        }
    }
}
