//! A table read as the C face gives it: its numbers in 32 bytes, its parts and texts by their places.
//!
//! The whole table is checked first. A refusal alters no byte of the numbers.

use crate::access::{bytes_of, description};
use crate::answer::Refusal;
use crate::element::{fixed_length, id, read_element};
use crate::label::TEXT_DATA;
use crate::numbers::{put_description, put_element, Numbers};
use crate::settings::Settings;
use std::ops::Range;

/// The description's numbers, as start takes them; all other bytes 0.
pub fn describe(table: &[u8], settings: Settings, numbers: &mut Numbers) -> Result<(), Refusal> {
    let record = description(table, settings)?;
    *numbers = Numbers::default();
    put_description(&record, settings.chip, numbers);
    Ok(())
}

/// The identifier of element k, and its numbers as append takes them; all other bytes 0. Of a zone
/// descriptor its number and its string index, of a string its number.
pub fn fields(
    table: &[u8],
    k: usize,
    settings: Settings,
    numbers: &mut Numbers,
) -> Result<u8, Refusal> {
    let (_, bytes) = bytes_of(table, k, settings)?;
    *numbers = Numbers::default();
    match bytes[0] {
        id::ZONE => numbers[..2].copy_from_slice(&bytes[3..5]),
        id::TEXT => numbers[0] = bytes[3],
        _ => {
            if let Some((record, _)) = read_element(bytes, settings.chip) {
                put_element(&record, settings.chip, numbers);
            }
        }
    }
    Ok(bytes[0])
}

/// Where the variable part of element k stands in the table; an empty one stands at the element's end.
pub fn part_place(table: &[u8], k: usize, settings: Settings) -> Result<Range<usize>, Refusal> {
    let (place, bytes) = bytes_of(table, k, settings)?;
    Ok(place + fixed_length(bytes[0])..place + bytes.len())
}

/// Where the text of element k stands in the table; `None` when it is no string.
pub fn text_place(
    table: &[u8],
    k: usize,
    settings: Settings,
) -> Result<Option<Range<usize>>, Refusal> {
    let (place, bytes) = bytes_of(table, k, settings)?;
    let text = place + TEXT_DATA..place + bytes.len();
    Ok((bytes[0] == id::TEXT).then_some(text))
}
