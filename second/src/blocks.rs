//! The blocks in the variable parts of 09h, 0Ah and 0Dh. They are lent: nothing is copied.

use crate::units::HundredRpm;

/// 000, Table 23: a register pair is 4 bytes, address and data.
#[derive(Clone, Copy, Debug, PartialEq, Eq)]
pub struct RegisterPair {
    pub address: u16,
    pub data: u16,
}

/// ENTRIES register pairs, as their bytes.
#[derive(Clone, Copy, Debug, PartialEq, Eq)]
pub struct Pairs<'p>(&'p [u8]);

impl<'p> Pairs<'p> {
    /// So many pairs from the front, and the rest; `None` when there are too few bytes.
    fn cut(bytes: &'p [u8], entries: u8) -> Option<(Pairs<'p>, &'p [u8])> {
        let (pairs, rest) = bytes.split_at_checked(4 * usize::from(entries))?;
        Some((Pairs(pairs), rest))
    }

    pub fn entries(self) -> u8 {
        (self.0.len() / 4) as u8
    }

    pub fn get(self, i: usize) -> Option<RegisterPair> {
        let pair = self.0.chunks_exact(4).nth(i)?;
        Some(RegisterPair {
            address: u16::from_le_bytes([pair[0], pair[1]]),
            data: u16::from_le_bytes([pair[2], pair[3]]),
        })
    }
}

/// 000, Table 22.
#[derive(Clone, Copy, Debug, PartialEq, Eq)]
pub struct SpeedBlock<'p> {
    pub speed: HundredRpm,
    pub pairs: Pairs<'p>,
}

/// The speed blocks of any bytes, from the front and as far as they stand whole.
#[derive(Clone, Copy, Debug)]
pub struct SpeedBlocks<'p> {
    /// What no block was cut from so far.
    pub rest: &'p [u8],
}

impl<'p> Iterator for SpeedBlocks<'p> {
    type Item = SpeedBlock<'p>;

    fn next(&mut self) -> Option<SpeedBlock<'p>> {
        let (&[speed, entries], rest) = self.rest.split_first_chunk()?;
        let (pairs, rest) = Pairs::cut(rest, entries)?;
        self.rest = rest;
        let speed = HundredRpm(speed);
        Some(SpeedBlock { speed, pairs })
    }
}

/// Speed block j of any bytes; `None` unless it and all before it stand whole there.
pub fn speed_block(part: &[u8], j: usize) -> Option<SpeedBlock<'_>> {
    SpeedBlocks { rest: part }.nth(j)
}

/// The number of speed blocks of a part of 09h; `None` when they do not fill it exactly.
pub fn count_speed_blocks(part: &[u8]) -> Option<usize> {
    let mut blocks = SpeedBlocks { rest: part };
    let count = blocks.by_ref().count();
    blocks.rest.is_empty().then_some(count)
}

/// One block of 0Ah or 0Dh, ENTRIES and its pairs, from the front, and the rest.
fn cut_register_block(bytes: &[u8]) -> Option<(Pairs<'_>, &[u8])> {
    let (&entries, rest) = bytes.split_first()?;
    Pairs::cut(rest, entries)
}

/// Block w of 0Ah out of any bytes, 0 for initialisation and 1 for status; `None` for any other, and
/// unless it and the one before it stand whole there.
pub fn register_block(part: &[u8], w: usize) -> Option<Pairs<'_>> {
    block_of(part, w, 2)
}

/// Block w of 0Dh out of any bytes, 0 for red, 1 for green and 2 for blue; `None` for any other, and unless it
/// and those before it stand whole there.
pub fn colour_block(part: &[u8], w: usize) -> Option<Pairs<'_>> {
    block_of(part, w, 3)
}

/// Block w of so many.
fn block_of(part: &[u8], w: usize, count: usize) -> Option<Pairs<'_>> {
    if w >= count {
        return None;
    }
    let mut rest = part;
    for _ in 0..w {
        rest = cut_register_block(rest)?.1;
    }
    cut_register_block(rest).map(|(block, _)| block)
}

/// So many blocks of 0Ah or 0Dh fill the part exactly.
pub fn register_blocks_fill(part: &[u8], count: usize) -> bool {
    let mut rest = part;
    for _ in 0..count {
        match cut_register_block(rest) {
            Some((_, after)) => rest = after,
            None => return false,
        }
    }
    rest.is_empty()
}
