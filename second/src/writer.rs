//! The writer: starts a table, or appends one element. A refusal changes no byte.

use crate::answer::{number, Refusal, DESCRIPTION_LENGTH, LARGEST_TABLE};
use crate::element::word;
use crate::layout;
use crate::record::{Description, Element};
use crate::rules;
use crate::settings::{Chip, Rules};

/// Starts a table for this chip in the buffer; gives the new length, 16. Checks 1, 25, 4, 5, 10; a pin of
/// the other chip is 10 too.
pub fn start(buffer: &mut [u8], chip: Chip, description: &Description) -> Result<usize, Refusal> {
    if buffer.len() < DESCRIPTION_LENGTH {
        return Err(Refusal::at(number::SHORT, 0));
    }
    check_description(description, chip).map_err(|number| Refusal::at(number, 0))?;
    buffer[..DESCRIPTION_LENGTH].copy_from_slice(&layout::description(description));
    Ok(DESCRIPTION_LENGTH)
}

fn check_description(description: &Description, chip: Chip) -> Result<(), u8> {
    if !rules::description_fits(description) {
        Err(number::TOO_LARGE)
    } else if !(1..=3).contains(&description.device_type) {
        Err(number::DEVICE_TYPE)
    } else if !description.self_powered && description.power.0 > 125 {
        Err(number::POWER)
    } else if !rules::hardware_pins_good(description, chip) {
        Err(number::PIN)
    } else {
        Ok(())
    }
}

/// Appends one element to the table for this chip in the buffer; gives the new length.
///
/// Checks 1, 3, 25, 8, 9, 23, 10, 16; a pin of the other chip is 10 too. Of the bytes there it looks at 1-2
/// only, the length so far; it changes those two and the new element's bytes. There is no archive to write:
/// block mode is always 23.
pub fn append(
    buffer: &mut [u8],
    chip: Chip,
    element: &Element,
    part: &[u8],
) -> Result<usize, Refusal> {
    let so_far = length_so_far(buffer)?;
    if !rules::numbers_fit(element) {
        return Err(Refusal::at(number::TOO_LARGE, 0));
    }
    check_element(element, part, chip).map_err(|number| Refusal::at(number, so_far))?;
    let fixed = layout::fixed(element);
    let fixed = fixed.bytes();
    // A part is at most isize::MAX bytes, so that this sum cannot wrap.
    let length = fixed.len() + part.len();
    let new_length = so_far + length;
    if new_length > buffer.len() || new_length > LARGEST_TABLE {
        return Err(Refusal::at(number::NO_ROOM, 0));
    }
    let place = &mut buffer[so_far..new_length];
    place[..fixed.len()].copy_from_slice(fixed);
    place[1..3].copy_from_slice(&(length as u16).to_le_bytes());
    place[fixed.len()..].copy_from_slice(part);
    buffer[1..3].copy_from_slice(&(new_length as u16).to_le_bytes());
    Ok(new_length)
}

/// 1, and append's own 3: the length so far is under 16, over 4,096 or past the buffer.
fn length_so_far(buffer: &[u8]) -> Result<usize, Refusal> {
    if buffer.len() < DESCRIPTION_LENGTH {
        return Err(Refusal::at(number::SHORT, 0));
    }
    let so_far = usize::from(word(buffer, 1));
    let largest = buffer.len().min(LARGEST_TABLE);
    if !(DESCRIPTION_LENGTH..=largest).contains(&so_far) {
        return Err(Refusal::at(number::LENGTH, 0));
    }
    Ok(so_far)
}

/// 8, 9, 23, 10 on the record and its part.
fn check_element(element: &Element, part: &[u8], chip: Chip) -> Result<(), u8> {
    if !rules::part_fits(element, part) {
        Err(number::LAYOUT)
    } else if !rules::codes_good(element, part) {
        Err(number::CODE)
    } else if !rules::bus_in_use(element, Rules::Ordinary) {
        Err(number::RETIRED)
    } else if !rules::pins_good(element, chip) {
        Err(number::PIN)
    } else {
        Ok(())
    }
}
