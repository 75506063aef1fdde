//! A table is started in a buffer and each element appended to it; bytes 1-2 of the buffer hold the length so far. With a refusal no
//! byte of the buffer alters. A table that is still being written may break rules over the whole of it (11 to 15, and 10 where the
//! fan list runs from element to element): ask [`check`](crate::check), for the same chip, when it is done. By the ordinary rules
//! always: there is no archive's writer.

use crate::answers::counted;
use crate::{raw, Chip, Kind, Numbers, Refusal};

/// Starts a table with the description in the numbers. The length, 16; or, in this order, 1 (a buffer under 16 bytes), 25, 4, 5,
/// 10, all at 0.
///
/// ```
/// use esa::{append, check, pin, start, Chip, Kind, Numbers, UNUSED_PIN};
/// let chip = Chip::C8051F320;
/// let mut buffer = [0; esa::LONGEST];
/// let case = Numbers::new().byte(0, 2).four(2, 7).byte(6, 1).bytes(8, [UNUSED_PIN; 3]);
/// assert_eq!(start(&mut buffer, chip, &case), Ok(16));
///
/// let fan = Numbers::new().bytes(0, [0, 0xFF, 0xFF, 0xFF, 1]).bytes(5, [pin(0, 5), pin(0, 6), 2]);
/// assert_eq!(append(&mut buffer, Kind::Fan, chip, &fan, &[]), Ok(32));
/// assert_eq!(check(&buffer[..32], Default::default()).unwrap_err().number(), 13); // its zone is missing
///
/// let mut zone = [0; 27];
/// zone[0] = 1;
/// let length = append(&mut buffer, Kind::Zone, chip, &Numbers::new(), &zone).unwrap();
/// assert_eq!(check(&buffer[..length], Default::default()), Ok(2));
/// ```
pub fn start(buffer: &mut [u8], chip: Chip, description: &Numbers) -> Result<usize, Refusal> {
    counted(unsafe { raw::esa_start(buffer.as_mut_ptr(), buffer.len(), chip as u64, description.0.as_ptr()) })
}

/// Appends an element of this kind with its variable part. The new length; only bytes 1-2 and those of the new element alter. Or,
/// in this order, 1 at 0 (a buffer under 16 bytes); 3 at 0; 25 at 0; 8, 9, 23, 10 at the length so far; 16 at 0. A part beside a
/// kind that has none is 8. (An identifier of no kind, which is 7 from C, has no [`Kind`].)
pub fn append(buffer: &mut [u8], kind: Kind, chip: Chip, numbers: &Numbers, part: &[u8]) -> Result<usize, Refusal> {
    let (at, length) = (buffer.as_mut_ptr(), buffer.len());
    let (from, part_length) = (part.as_ptr(), part.len());
    counted(unsafe { raw::esa_append(at, length, kind.id(), chip as u64, numbers.0.as_ptr(), from, part_length) })
}

/// Reads the records of a table and writes them again: the front of `out` is then that table with its reserved places at zero. Its
/// length; or the table's own refusal, or 16 at 0 when `out` is shorter than the table. With either no byte of `out` alters.
///
/// ```
/// let mut table = std::fs::read("../../tables/quiet-box.esa")?;
/// let clean = table.clone();
/// table[12] = 0xA5; // a reserved place
/// let mut out = vec![0; table.len()];
/// assert_eq!(esa::rewrite(&table, Default::default(), &mut out), Ok(326));
/// assert_eq!(out, clean);
/// assert_eq!(esa::rewrite(&table, Default::default(), &mut out[..325]).unwrap_err().number(), 16);
/// # Ok::<(), std::io::Error>(())
/// ```
pub fn rewrite(table: &[u8], chip: Chip, out: &mut [u8]) -> Result<usize, Refusal> {
    let (at, room) = (out.as_mut_ptr(), out.len());
    counted(unsafe { raw::esa_rewrite(table.as_ptr(), table.len(), chip as u64, at, room) })
}

/// Takes element k, counted from 0, out of a table, which is lent whole and no byte more. The new length: the bytes behind the
/// element are closed up as they stand, and bytes 1-2 hold the new length. Or, in this order, the table's own refusal; 17 at 0; 22
/// at the element when something still names it. With a refusal no byte alters.
///
/// ```
/// let mut table = std::fs::read("../../tables/quiet-box.esa")?;
/// let length = esa::remove(&mut table, 3, Default::default()).unwrap();
/// assert_eq!(esa::check(&table[..length], Default::default()), Ok(14));
/// # Ok::<(), std::io::Error>(())
/// ```
pub fn remove(table: &mut [u8], k: usize, chip: Chip) -> Result<usize, Refusal> {
    counted(unsafe { raw::esa_remove(table.as_mut_ptr(), table.len(), k, chip as u64) })
}
