//! The pin sheet: which pin is free? By the ordinary rules always.

use crate::answers::{counted, front};
use crate::{raw, Chip, Refusal};

/// Who claims a pin first, in the order of the claims.
#[derive(Clone, Copy, Debug, PartialEq, Eq)]
pub enum Claimant {
    /// No claim names the pin.
    Free,
    /// The fault LED, always on P1.0.
    FaultLed,
    /// The element at this place of the table; 0 is the description, with a hardware revision pin.
    At(u16),
}

/// A number for each of the 25 pins, P0.0 to P2.7 and P3.0. It speaks only for the table that it was made from.
#[derive(Clone, Copy, Debug, PartialEq, Eq)]
pub struct Sheet(pub [u16; Sheet::PINS]);

impl Sheet {
    /// How many pins a sheet has, of either chip.
    pub const PINS: usize = 25;
    /// The number of a free pin.
    pub const FREE: u16 = 0xFFFF;
    /// The number of the fault LED's pin.
    pub const LED: u16 = 0xFFFE;

    /// All of them free: a sheet of no table yet.
    pub const fn new() -> Sheet {
        Sheet([Sheet::FREE; Sheet::PINS])
    }

    /// Who claims this pin, such as `claimant(1, 3)` for P1.3? `None` where there is no such pin.
    pub fn claimant(&self, port: usize, pin: usize) -> Option<Claimant> {
        if pin > 7 {
            return None;
        }
        let number = self.0.get(8usize.checked_mul(port)?.checked_add(pin)?)?;
        Some(match *number {
            Sheet::FREE => Claimant::Free,
            Sheet::LED => Claimant::FaultLed,
            place => Claimant::At(place),
        })
    }
}

impl Default for Sheet {
    fn default() -> Sheet {
        Sheet::new()
    }
}

/// Makes the sheet afresh; gives the number of elements. With a refusal the sheet is as it was.
///
/// ```
/// use esa::{sheet, Claimant, Sheet};
/// let table = std::fs::read("../../tables/quiet-box.esa")?;
/// let mut pins = Sheet::new();
/// assert_eq!(sheet(&table, Default::default(), &mut pins), Ok(15));
/// assert_eq!(pins.claimant(0, 5), Some(Claimant::At(16)));
/// assert_eq!(pins.claimant(1, 0), Some(Claimant::FaultLed));
/// assert_eq!(pins.claimant(3, 0), Some(Claimant::At(0)));
/// assert_eq!(pins.claimant(3, 1), None);
/// # Ok::<(), std::io::Error>(())
/// ```
pub fn sheet(table: &[u8], chip: Chip, sheet: &mut Sheet) -> Result<usize, Refusal> {
    counted(unsafe { raw::esa_sheet(table.as_ptr(), table.len(), chip as u64, sheet.0.as_mut_ptr()) })
}

/// Brings the sheet of the table before an append forward to the new table, which is checked first; gives the number of elements.
/// After an append to an accepted table that leaves it accepted this is the sheet that [`sheet`] makes of the new table. With a
/// refusal the sheet is as it was.
pub fn sheet_forward(table: &[u8], chip: Chip, sheet: &mut Sheet) -> Result<usize, Refusal> {
    counted(unsafe { raw::esa_sheet_forward(table.as_ptr(), table.len(), chip as u64, sheet.0.as_mut_ptr()) })
}

/// Every text of a sheet fits into so many bytes.
const TEXT: usize = 275;

/// The text of a sheet, of whatever numbers: a line for each pin of the chip, 25 of them or 21.
///
/// ```
/// let text = esa::sheet_text(&esa::Sheet::new(), esa::Chip::C8051F321);
/// assert_eq!((text.lines().next(), text.lines().count()), (Some("P0.0\t-"), 21));
/// ```
pub fn sheet_text(sheet: &Sheet, chip: Chip) -> String {
    let mut out = vec![0; TEXT];
    let length = unsafe { raw::esa_sheet_text(sheet.0.as_ptr(), chip as u64, out.as_mut_ptr()) };
    front(out, length)
}
