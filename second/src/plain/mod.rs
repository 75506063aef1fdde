//! The plain reader: the same rules as the fast one, with lists and no cleverness.
//!
//! Everything is decoded to records first; numbers are looked up in lists; claims are compared
//! pairwise. Its listing is put together of pieces of text. It exists to be held against the fast reader
//! and the fast listing.

pub mod claims;
mod diff;
mod fan;
mod hex;
mod label;
mod listing;
mod receiver;
mod remove;
mod salvage;
mod trace;

use crate::answer::{
    number, Refusal, Verdict, DESCRIPTION_LENGTH, LARGEST_TABLE, MOST_ELEMENTS, MOST_ZONES,
};
use crate::element::{self, id, read_description, read_element, word};
use crate::pins::{Pin, FAN_LIST};
use crate::record::{Description, Element};
use crate::rules;
use crate::settings::{Chip, Settings};
use claims::{check_claims, claims};

pub use claims::own_pins;
pub use diff::diff;
pub use fan::fan;
pub use hex::{hex, unhex};
pub use label::label;
pub use listing::listing;
pub use receiver::Receiver;
pub use remove::remove;
pub use salvage::salvage;
pub use trace::{converted, trace};

/// One element as found: where it starts, its record and its variable part.
#[derive(Clone, Debug)]
pub struct Found<'t> {
    pub place: usize,
    pub element: Element,
    pub part: &'t [u8],
}

/// The verdict on a whole table.
pub fn check(table: &[u8], settings: Settings) -> Verdict {
    match elements(table, settings) {
        Ok(found) => Verdict::Accepted(found.len()),
        Err(Refusal { number, place }) => Verdict::Refused { number, place },
    }
}

/// All elements of an accepted table, or the refusal.
pub fn elements(table: &[u8], settings: Settings) -> Result<Vec<Found<'_>>, Refusal> {
    check_description(table, settings.chip)?;
    let description = read_description(table, settings.chip);
    let found = pass(table, settings)?;
    check_zones(&found)?;
    check_strings(&description, &found)?;
    check_claims(&claims(&description, &found))?;
    Ok(found)
}

/// 1 to 5, then the hardware revision pins (10).
fn check_description(table: &[u8], chip: Chip) -> Result<(), Refusal> {
    if table.len() < DESCRIPTION_LENGTH {
        return Err(Refusal::at(number::SHORT, 0));
    }
    if table[0] != 0x01 {
        return Err(Refusal::at(number::REVISION, 0));
    }
    if usize::from(word(table, 1)) != table.len() || table.len() > LARGEST_TABLE {
        return Err(Refusal::at(number::LENGTH, 0));
    }
    let description = read_description(table, chip);
    if ![1, 2, 3].contains(&description.device_type) {
        return Err(Refusal::at(number::DEVICE_TYPE, 0));
    }
    if !description.self_powered && description.power.0 > 125 {
        return Err(Refusal::at(number::POWER, 0));
    }
    if !rules::hardware_pins_good(&description, chip) {
        return Err(Refusal::at(number::PIN, 0));
    }
    Ok(())
}

/// Each element from offset 16 is taken through 6, the 97th, 7, 8, 9, 23, 10 of its own and 10 of the fan
/// list through the table, the 13th zone and 12
/// before the next is looked at.
fn pass(table: &[u8], settings: Settings) -> Result<Vec<Found<'_>>, Refusal> {
    let mut found: Vec<Found> = Vec::new();
    let mut place = DESCRIPTION_LENGTH;
    while place < table.len() {
        let bytes = cut(&table[place..]).ok_or(Refusal::at(number::HEADER, place))?;
        if found.len() == MOST_ELEMENTS {
            return Err(Refusal::at(number::TOO_MANY, place));
        }
        let (element, part) =
            judge(bytes, settings).map_err(|number| Refusal::at(number, place))?;
        let new = Found {
            place,
            element,
            part,
        };
        check_fans(&found, &new)?;
        check_number(&found, &new)?;
        found.push(new);
        place += bytes.len();
    }
    Ok(found)
}

/// 6: the bytes of the element at the front; `None` when its header or its length do not fit.
fn cut(rest: &[u8]) -> Option<&[u8]> {
    if rest.len() < element::HEADER_LENGTH {
        return None;
    }
    let length = usize::from(word(rest, 1));
    if length < element::HEADER_LENGTH || length > rest.len() {
        return None;
    }
    Some(&rest[..length])
}

/// 7, 8, 9, 23, 10 for one element.
fn judge(bytes: &[u8], settings: Settings) -> Result<(Element, &[u8]), u8> {
    if !id::ALL.contains(&bytes[0]) {
        return Err(number::IDENTIFIER);
    }
    let (element, part) = read_element(bytes, settings.chip).ok_or(number::LAYOUT)?;
    if !rules::part_fits(&element, part) {
        return Err(number::LAYOUT);
    }
    if !rules::codes_good(&element, part) {
        return Err(number::CODE);
    }
    if !rules::bus_in_use(&element, settings.rules) {
        return Err(number::RETIRED);
    }
    if !rules::pins_good(&element, settings.chip) {
        return Err(number::PIN);
    }
    Ok((element, part))
}

/// The fan-list pins of a fan, a pump or an RGB LED on the controller, as places in the list. Chip selects are
/// not counted.
fn fan_list_places(element: &Element) -> Vec<usize> {
    let counted = matches!(
        element,
        Element::Fan(_) | Element::Pump(_) | Element::RgbLed(_)
    );
    let place = |pin: &Pin| FAN_LIST.iter().position(|&listed| listed == pin.byte());
    match counted {
        true => own_pins(element).iter().filter_map(place).collect(),
        false => Vec::new(),
    }
}

/// 10: the fan-list pins of all elements, taken in element order, rise.
fn check_fans(found: &[Found], new: &Found) -> Result<(), Refusal> {
    let before = found.iter().flat_map(|one| fan_list_places(&one.element));
    match (before.last(), fan_list_places(&new.element).first()) {
        (Some(last), Some(&first)) if first <= last => Err(Refusal::at(number::PIN, new.place)),
        _ => Ok(()),
    }
}

/// The numbers of all zones, or of all strings, among those found.
fn numbers(found: &[Found], identifier: u8) -> Vec<u8> {
    found
        .iter()
        .filter(|one| one.element.identifier() == identifier)
        .map(|one| one.part[0])
        .collect()
}

/// The 13th zone (11), then a string or zone number a second time (12).
fn check_number(found: &[Found], new: &Found) -> Result<(), Refusal> {
    let identifier = new.element.identifier();
    if identifier != id::ZONE && identifier != id::TEXT {
        return Ok(());
    }
    let known = numbers(found, identifier);
    if identifier == id::ZONE && known.len() == MOST_ZONES {
        return Err(Refusal::at(number::TOO_MANY, new.place));
    }
    if known.contains(&new.part[0]) {
        return Err(Refusal::at(number::TWICE, new.place));
    }
    Ok(())
}

/// 13: the zone of an element has no descriptor.
fn check_zones(found: &[Found]) -> Result<(), Refusal> {
    let known = numbers(found, id::ZONE);
    for one in found {
        if let Some(common) = one.element.common() {
            if !known.contains(&common.zone) {
                return Err(Refusal::at(number::NO_ZONE, one.place));
            }
        }
    }
    Ok(())
}

/// A zone's string index is byte 4 of the element; a string has none.
fn string_index(one: &Found) -> u8 {
    match (&one.element, one.element.common()) {
        (_, Some(common)) => common.string,
        (Element::Zone(_), None) => one.part[1],
        _ => 0,
    }
}

/// 14: a string index that is not 0 and has no string; the description first.
fn check_strings(description: &Description, found: &[Found]) -> Result<(), Refusal> {
    let known = numbers(found, id::TEXT);
    let missing = |index: u8| index != 0 && !known.contains(&index);
    if missing(description.string) {
        return Err(Refusal::at(number::NO_STRING, 0));
    }
    for one in found {
        if missing(string_index(one)) {
            return Err(Refusal::at(number::NO_STRING, one.place));
        }
    }
    Ok(())
}
