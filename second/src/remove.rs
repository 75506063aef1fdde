//! Taking a part out: an element leaves an accepted table, what stands behind it closes up, and the length is
//! mended. The rules are the ordinary ones, as of all that writes.

use crate::access::{bytes_of, walk};
use crate::answer::{number, Refusal};
use crate::element::id;
use crate::settings::Chip;

/// Takes element k out of the lent table and gives the new length; the bytes from there on stay what they were.
/// Or the reader's refusal; or 17; or 22 at the element, when something still names it. A refusal changes no
/// byte.
pub fn remove(table: &mut [u8], k: usize, chip: Chip) -> Result<usize, Refusal> {
    let (place, element) = bytes_of(table, k, chip.into())?;
    if still_named(table, element) {
        return Err(Refusal::at(number::STILL_NAMED, place));
    }
    let behind = place + element.len();
    let length = table.len() - element.len();
    table.copy_within(behind.., place);
    table[1..3].copy_from_slice(&(length as u16).to_le_bytes());
    Ok(length)
}

/// Whether the description or an element names this zone or string, by its number; nothing else is ever named.
fn still_named(table: &[u8], element: &[u8]) -> bool {
    let named = Some(element[3]);
    match element[0] {
        id::ZONE => walk(table).any(|(_, one)| zone_named(one) == named),
        id::TEXT => {
            let by_description = Some(table[4]) == named;
            by_description || walk(table).any(|(_, one)| string_named(one) == named)
        }
        _ => false,
    }
}

/// The zone identifier of an element. Zones and strings have none: there byte 7 is content.
fn zone_named(element: &[u8]) -> Option<u8> {
    match element[0] {
        id::ZONE | id::TEXT => None,
        _ => Some(element[7]),
    }
}

/// The string index of an element, which a zone descriptor has in byte 4 and a string has not. An index of 0
/// names none, and no string is numbered so.
fn string_named(element: &[u8]) -> Option<u8> {
    match element[0] {
        id::TEXT => None,
        id::ZONE => Some(element[4]),
        _ => Some(element[3]),
    }
}
