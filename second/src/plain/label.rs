//! The label once more, out of records, to be held against the other.

use super::{elements, string_index};
use crate::answer::{number, Refusal};
use crate::element::id;
use crate::settings::Settings;

/// The text of the string that the element's index names; a string's own; the name where the index is 0 or there
/// is none.
pub fn label<'l>(
    table: &'l [u8],
    k: usize,
    settings: Settings,
    name: &'l [u8],
) -> Result<&'l [u8], Refusal> {
    let found = elements(table, settings)?;
    let one = found.get(k).ok_or(Refusal::at(number::PAST_LAST, 0))?;
    // Of a string's part the first three bytes are number and locale.
    if one.element.identifier() == id::TEXT {
        return Ok(&one.part[3..]);
    }
    let index = string_index(one);
    let mut strings = found
        .iter()
        .filter(|other| other.element.identifier() == id::TEXT);
    match index {
        0 => Ok(name),
        _ => Ok(strings
            .find(|string| string.part[0] == index)
            .map(|string| &string.part[3..])
            .expect("rule 14 is kept")),
    }
}
