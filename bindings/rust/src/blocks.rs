//! Inside a variable part, which may be any bytes: 17 at 0 where no such block or pair stands whole in it. Blocks and pairs are
//! counted from 0.

use crate::answers::{counted, unpacked};
use crate::{raw, Refusal};

/// A speed block of an external PWM controller.
#[derive(Clone, Copy, Debug, PartialEq, Eq)]
pub struct Block {
    /// In units of 100 RPM.
    pub speed: u8,
    /// How many register pairs it has.
    pub entries: u8,
}

/// A register pair.
#[derive(Clone, Copy, Debug, PartialEq, Eq)]
pub struct Pair {
    /// The register.
    pub address: u16,
    /// What is written into it, or read from it.
    pub data: u16,
}

fn paired(answer: u64) -> Result<Pair, Refusal> {
    let beside = unpacked(answer)?;
    Ok(Pair { address: (beside & 0xFFFF) as u16, data: (beside >> 16 & 0xFFFF) as u16 })
}

/// Of the part of 09h: its speed block j; 0 is the default block.
///
/// ```
/// use esa::{block, pair, Block, Pair};
/// let part = [12, 1, 0x05, 0, 0x40, 0]; // 1,200 RPM: register 5 is 64
/// assert_eq!(block(&part, 0), Ok(Block { speed: 12, entries: 1 }));
/// assert_eq!(pair(&part, 0, 0), Ok(Pair { address: 5, data: 64 }));
/// assert_eq!(pair(&part, 0, 1).unwrap_err().number(), 17);
/// ```
pub fn block(part: &[u8], j: usize) -> Result<Block, Refusal> {
    let beside = unpacked(unsafe { raw::esa_block(part.as_ptr(), part.len(), j) })?;
    Ok(Block { speed: (beside & 0xFF) as u8, entries: (beside >> 8 & 0xFF) as u8 })
}

/// Of the part of 09h: register pair i of speed block j.
pub fn pair(part: &[u8], j: usize, i: usize) -> Result<Pair, Refusal> {
    paired(unsafe { raw::esa_pair(part.as_ptr(), part.len(), j, i) })
}

/// Of the part of 0Ah: the number of register pairs of block w, 0 for the initialisation block and 1 for the status block.
///
/// ```
/// use esa::{entries, entry, Pair};
/// let part = [0, 1, 0x07, 0, 0x0C, 0]; // nothing at first; register 7 has the status 12
/// assert_eq!((entries(&part, 0), entries(&part, 1)), (Ok(0), Ok(1)));
/// assert_eq!(entry(&part, 1, 0), Ok(Pair { address: 7, data: 12 }));
/// ```
pub fn entries(part: &[u8], w: usize) -> Result<usize, Refusal> {
    counted(unsafe { raw::esa_entries(part.as_ptr(), part.len(), w) })
}

/// Of the part of 0Ah: register pair i of block w.
pub fn entry(part: &[u8], w: usize, i: usize) -> Result<Pair, Refusal> {
    paired(unsafe { raw::esa_entry(part.as_ptr(), part.len(), w, i) })
}

/// Of the part of 0Dh: the number of register pairs of block w, 0 for red, 1 for green and 2 for blue.
///
/// ```
/// use esa::{colour, colours, Pair};
/// let part = [1, 2, 0, 64, 0, 0, 0]; // one pair for red, none for green and blue
/// assert_eq!((0..3).map(|w| colours(&part, w).unwrap()).collect::<Vec<_>>(), [1, 0, 0]);
/// assert_eq!(colour(&part, 0, 0), Ok(Pair { address: 2, data: 64 }));
/// ```
pub fn colours(part: &[u8], w: usize) -> Result<usize, Refusal> {
    counted(unsafe { raw::esa_colours(part.as_ptr(), part.len(), w) })
}

/// Of the part of 0Dh: register pair i of block w.
pub fn colour(part: &[u8], w: usize, i: usize) -> Result<Pair, Refusal> {
    paired(unsafe { raw::esa_colour(part.as_ptr(), part.len(), w, i) })
}
