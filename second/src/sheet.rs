//! A pin sheet beside a table: for each pin the place of its first claimant. It speaks only for the table it was made from.

use crate::access::walk;
use crate::answer::Refusal;
use crate::element::{read_description, read_element};
use crate::pins::{name, ALL};
use crate::plain::claims::{of_description, of_element, Claim};
use crate::reader::check;
use crate::settings::Chip;

/// A number for each of the 25 pins, in the order of [`ALL`]: the offset of its first claimant in claim order (0 for
/// the description), [`LED`] or [`FREE`]. Of the 321 the four that it lacks are free.
pub type Sheet = [u16; 25];

/// Beside the pin of the fault LED.
pub const LED: u16 = 0xFFFE;
/// Beside a pin that no claim names.
pub const FREE: u16 = 0xFFFF;

/// Room for every text: of each pin its name, a tab, five digits and a line feed.
pub const SHEET_TEXT: usize = 275;

/// Makes the sheet of a table afresh, and gives the number of elements. With a refusal, by the ordinary rules, the old
/// sheet is kept.
pub fn sheet(table: &[u8], chip: Chip, sheet: &mut Sheet) -> Result<usize, Refusal> {
    let count = check(table, chip.into()).into_result()?;
    let mut claims = of_description(&read_description(table, chip));
    for (place, bytes) in walk(table) {
        claims.extend(claims_of(place, bytes, chip));
    }
    for (beside, &pin) in sheet.iter_mut().zip(&ALL) {
        *beside = match claims.iter().position(|claim| claim.pin == pin) {
            // The first claim of all is the fault LED's.
            Some(0) => LED,
            Some(at) => claims[at].place as u16,
            None => FREE,
        };
    }
    Ok(count)
}

/// Brings the sheet of the table before the last append forward, and gives the number of elements. It is lent the new
/// table, which is checked first: with a refusal the old sheet is kept. Of its elements it looks at the last alone,
/// whose place goes beside each pin that it claims and that was free.
pub fn forward(table: &[u8], chip: Chip, sheet: &mut Sheet) -> Result<usize, Refusal> {
    let count = check(table, chip.into()).into_result()?;
    if let Some((place, bytes)) = walk(table).last() {
        let claims = claims_of(place, bytes, chip);
        for (beside, &pin) in sheet.iter_mut().zip(&ALL) {
            if *beside == FREE && claims.iter().any(|claim| claim.pin == pin) {
                *beside = place as u16;
            }
        }
    }
    Ok(count)
}

/// The claims of one element of an accepted table.
fn claims_of(place: usize, bytes: &[u8], chip: Chip) -> Vec<Claim> {
    let (element, _) = read_element(bytes, chip).expect("the table is accepted");
    of_element(place, &element)
}

/// The sheet as text, of whatever numbers: a line for each pin that the chip has, from P0.0 up.
pub fn sheet_text(sheet: &Sheet, chip: Chip) -> String {
    let pins = ALL.iter().zip(sheet).filter(|(&pin, _)| chip.has(pin));
    pins.map(|(&pin, &beside)| format!("{}\t{}\n", name(pin), spelled(beside)))
        .collect()
}

fn spelled(beside: u16) -> String {
    match beside {
        LED => "L".to_string(),
        FREE => "-".to_string(),
        place => place.to_string(),
    }
}
