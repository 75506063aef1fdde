//! Two tables side by side.

use crate::answers::{front, named};
use crate::{raw, Chip, Refusal};
use std::fmt;

/// Which of two tables.
#[derive(Clone, Copy, Debug, PartialEq, Eq)]
pub enum Side {
    /// The one named first.
    First = 1,
    /// The one beside it.
    Second = 2,
}

/// The refusal of one of two tables. It prints as 1 or 2, and the refusal.
#[derive(Clone, Copy, Debug, PartialEq, Eq)]
pub struct SideRefusal {
    /// Which of the two is refused.
    pub side: Side,
    /// Its own refusal.
    pub refusal: Refusal,
}

impl fmt::Display for SideRefusal {
    fn fmt(&self, to: &mut fmt::Formatter) -> fmt::Result {
        write!(to, "table {}: {}", self.side as u8, self.refusal)
    }
}

impl std::error::Error for SideRefusal {}

/// Every text of differences fits into so many bytes.
const DIFFERENCES: usize = 65536;

/// In which fields do the records of two tables differ? A line for each: `D`, both offsets, the field's name, both contents, by
/// tabs. No line exactly when the records are equal. Both are read by the archive's rules; the first table's refusal comes first.
///
/// ```
/// use esa::{diff, Chip};
/// let last = std::fs::read("../../tables/last-month.esa")?;
/// let this = std::fs::read("../../tables/this-month.esa")?;
/// assert_eq!(diff(&last, &last, Chip::C8051F320).as_deref(), Ok(""));
/// let lines = diff(&last, &this, Chip::C8051F320).unwrap();
/// assert!(lines.lines().all(|line| line.starts_with("D\t")));
/// let of_none = diff(&last, &[], Chip::C8051F320).unwrap_err();
/// assert_eq!(of_none.to_string(), "table 2: 1 at 0: fewer than 16 bytes");
/// # Ok::<(), std::io::Error>(())
/// ```
pub fn diff(one: &[u8], two: &[u8], chip: Chip) -> Result<String, SideRefusal> {
    let mut out = vec![0; DIFFERENCES];
    let lent = out.as_mut_ptr();
    let answer = unsafe { raw::esa_diff(one.as_ptr(), one.len(), two.as_ptr(), two.len(), chip as u64, lent) };
    match (answer & 0xFF) as u8 {
        0 => Ok(front(out, (answer >> 8) as usize)),
        number => Err(refused(number, answer)),
    }
}

/// With a refusal the place is in bits 23-8, and 1 or 2 in bits 31-24.
fn refused(number: u8, answer: u64) -> SideRefusal {
    let side = if answer >> 24 & 3 == 1 { Side::First } else { Side::Second };
    SideRefusal { side, refusal: Refusal { rule: named(number), place: (answer >> 8 & 0xFFFF) as usize } }
}
