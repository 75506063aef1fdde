//! What can be saved of a damaged table, by the ordinary rules always.

use crate::answers::{front, unpacked};
use crate::{raw, Chip, Refusal};

/// Every text of changes fits into so many bytes.
const LINES: usize = 32768;

/// What was saved: the length of the new table at the front of the lent place, and the changes.
#[derive(Clone, Debug, PartialEq, Eq)]
pub struct Saved {
    /// The length of the new table.
    pub length: usize,
    /// A line for each change, in the order made: old offset, number of the rule, `left out` or `cleared`, by tabs. Where it stopped has
    /// no line: [`check`](crate::check) of the file tells whether it was whole.
    pub lines: String,
}

/// Saves what can be saved of any bytes, of which the first 4,096 count: the front of `out` is then a table that is accepted. Or 24
/// at 0 when the description itself cannot be saved; or 16 at 0 when `out` is shorter than the new table. With a refusal no byte of
/// `out` alters.
///
/// ```
/// let damaged = std::fs::read("../../tables/damaged.esa")?;
/// let mut out = [0; esa::LONGEST];
/// let saved = esa::salvage(&damaged, Default::default(), &mut out).unwrap();
/// assert!(esa::check(&out[..saved.length], Default::default()).is_ok());
/// assert!(saved.lines.starts_with("102\t7\tleft out\n"));
/// # Ok::<(), std::io::Error>(())
/// ```
pub fn salvage(file: &[u8], chip: Chip, out: &mut [u8]) -> Result<Saved, Refusal> {
    let mut text = vec![0; LINES];
    let (at, room, lines) = (out.as_mut_ptr(), out.len(), text.as_mut_ptr());
    let beside = unpacked(unsafe { raw::esa_salvage(file.as_ptr(), file.len(), chip as u64, at, room, lines) })?;
    Ok(Saved { length: (beside & 0xFFFF) as usize, lines: front(text, (beside >> 16) as usize) })
}
