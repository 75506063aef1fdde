//! Asking a table for its description or one element. The whole table is checked first.

use crate::answer::{number, Refusal, DESCRIPTION_LENGTH};
use crate::element::{read_description, read_element, word};
use crate::reader::check;
use crate::record::{Description, Element};
use crate::settings::Settings;

/// The bytes of each element of an accepted table, with the offset where it starts.
pub fn walk(table: &[u8]) -> impl Iterator<Item = (usize, &[u8])> {
    let mut place = DESCRIPTION_LENGTH;
    std::iter::from_fn(move || {
        if place >= table.len() {
            return None;
        }
        let start = place;
        place += usize::from(word(table, start + 1));
        Some((start, &table[start..place]))
    })
}

/// The description of an accepted table, or the table's refusal.
pub fn description(table: &[u8], settings: Settings) -> Result<Description, Refusal> {
    check(table, settings).into_result()?;
    Ok(read_description(table, settings.chip))
}

/// Element k, counted from 0: its record, or the table's refusal, or 17.
///
/// The blocks of 09h and 0Ah and the whole content of a string or zone are its [`part`].
pub fn element(table: &[u8], k: usize, settings: Settings) -> Result<Element, Refusal> {
    record_and_part(table, k, settings).map(|(record, _)| record)
}

/// The variable part of element k as that part of the lent table; empty with a refusal.
pub fn part(table: &[u8], k: usize, settings: Settings) -> &[u8] {
    record_and_part(table, k, settings).map_or(&[], |(_, part)| part)
}

/// Record and variable part of element k together.
pub fn record_and_part(
    table: &[u8],
    k: usize,
    settings: Settings,
) -> Result<(Element, &[u8]), Refusal> {
    let (_, bytes) = bytes_of(table, k, settings)?;
    read_element(bytes, settings.chip).ok_or(Refusal::at(number::PAST_LAST, 0))
}

/// Where element k starts, and its bytes.
pub fn bytes_of(table: &[u8], k: usize, settings: Settings) -> Result<(usize, &[u8]), Refusal> {
    check(table, settings).into_result()?;
    let found = walk(table).nth(k);
    found.ok_or(Refusal::at(number::PAST_LAST, 0))
}
