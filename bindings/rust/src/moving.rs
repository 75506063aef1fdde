//! A raw table as Intel HEX, the text that a programmer takes, and back: the same bytes, reserved places as they stand. Both ways
//! the table is judged by the archive's rules. With a refusal no byte of the lent place alters.

use crate::answers::counted;
use crate::{raw, Chip, Refusal};

/// The characters of the longest table's text.
pub const LONGEST_TEXT: usize = 11276;

/// Puts the text of a table at the front of `out`; gives its length, at most [`LONGEST_TEXT`]. Or the table's own refusal; or 16 at
/// 0 when `out` is shorter than the text.
///
/// ```
/// use esa::{hex, unhex, LONGEST, LONGEST_TEXT};
/// let table = std::fs::read("../../tables/quiet-box.esa")?;
/// let mut text = [0; LONGEST_TEXT];
/// let length = hex(&table, Default::default(), &mut text).unwrap();
/// assert_eq!(text[..length], std::fs::read("../../tables/quiet-box.hex")?);
///
/// let mut back = [0; LONGEST];
/// let bytes = unhex(&text[..length], Default::default(), &mut back).unwrap();
/// assert_eq!(back[..bytes], table);
/// # Ok::<(), std::io::Error>(())
/// ```
pub fn hex(table: &[u8], chip: Chip, out: &mut [u8]) -> Result<usize, Refusal> {
    let (at, room) = (out.as_mut_ptr(), out.len());
    counted(unsafe { raw::esa_hex(table.as_ptr(), table.len(), chip as u64, at, room) })
}

/// Puts the table of a text at the front of `out`; gives its length. Or, in this order: 21 with the number of the first bad line,
/// counted from 1; the table's own refusal; 16 at 0 when `out` is shorter than the table.
///
/// ```
/// let refusal = esa::unhex(b":00000001ff\n", Default::default(), &mut []).unwrap_err();
/// assert_eq!((refusal.number(), refusal.place), (21, 1)); // capitals are wanted
/// ```
pub fn unhex(text: &[u8], chip: Chip, out: &mut [u8]) -> Result<usize, Refusal> {
    let (at, room) = (out.as_mut_ptr(), out.len());
    counted(unsafe { raw::esa_unhex(text.as_ptr(), text.len(), chip as u64, at, room) })
}
