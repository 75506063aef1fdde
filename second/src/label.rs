//! The label of an element: the text of its string, or the lent name. No byte is copied.

use crate::access::{bytes_of, walk};
use crate::answer::Refusal;
use crate::element::id;
use crate::settings::Settings;
use std::ops::Range;

/// Where a string's text starts (000, Table 29).
pub const TEXT_DATA: usize = 6;

/// The lent slice that a label is a part of.
#[derive(Clone, Copy, Debug, PartialEq, Eq)]
pub enum Lent {
    Table,
    Name,
}

/// Which slice the label of element k is a part of, and where it stands there; or the table's refusal, or 17.
///
/// A string gives its own text. Of the other kinds the index names a string that an accepted table has, or is 0,
/// which no string is numbered, and gives the whole name, so many bytes, as it is.
pub fn label_place(
    table: &[u8],
    k: usize,
    settings: Settings,
    name_length: usize,
) -> Result<(Lent, Range<usize>), Refusal> {
    let (_, element) = bytes_of(table, k, settings)?;
    // A string's own number, in byte 3 too, is the index that names it.
    let index = match element[0] {
        id::ZONE => element[4],
        _ => element[3],
    };
    let string = walk(table).find(|(_, bytes)| bytes[0] == id::TEXT && bytes[3] == index);
    Ok(match string {
        Some((place, bytes)) => (Lent::Table, place + TEXT_DATA..place + bytes.len()),
        None => (Lent::Name, 0..name_length),
    })
}

/// The label itself: a part of one of the two lent slices. With a refusal it is an empty part.
pub fn label<'l>(
    table: &'l [u8],
    k: usize,
    settings: Settings,
    name: &'l [u8],
) -> (&'l [u8], Result<(), Refusal>) {
    match label_place(table, k, settings, name.len()) {
        Ok((Lent::Table, place)) => (&table[place], Ok(())),
        Ok((Lent::Name, place)) => (&name[place], Ok(())),
        Err(refusal) => (&[], Err(refusal)),
    }
}
