//! The rules over one record, straight from the text: 25, 8, 9, 23 and 10.
//!
//! The plain reader and the writer stand on these; the fast reader does not use them.

use crate::blocks::{count_speed_blocks, register_blocks_fill, SpeedBlocks};
use crate::pins::{Pin, ALL, ANALOGUE, CHIP_SELECT, FAN_LIST, STATUS_LED};
use crate::record::*;
use crate::settings::{Chip, Rules};
use crate::text::well_formed;

/// 25 for a description: serial over 24 bits, power units over 7.
pub fn description_fits(description: &Description) -> bool {
    description.serial <= 0xFF_FFFF && description.power.0 <= 0x7F
}

/// 10 for a description: each hardware revision pin is unused or any that the chip has.
pub fn hardware_pins_good(description: &Description, chip: Chip) -> bool {
    description
        .hardware
        .iter()
        .all(|pin| !pin.is_used() || pin.is_of(chip, &ALL))
}

/// 25: every number that the record's type can hold and its field cannot.
pub fn numbers_fit(element: &Element) -> bool {
    if let Some(attachment) = element.attachment() {
        let address_fits = match attachment.address {
            Address::Bus(address) => address <= 0x7F,
            Address::Select(_) => true,
        };
        return attachment.bus_type <= 0x0F && address_fits;
    }
    match element {
        Element::AnalogueSensor(e) => e.thermal_type <= 0x0F,
        // "Unchecked" beside an unused pin frees from 9 alone.
        Element::StatusLed(e) => e
            .lights
            .iter()
            .all(|light| light.colour <= 0x0F && light.purpose <= 0x0F),
        _ => true,
    }
}

/// 8: the part is one that the layout can have.
pub fn part_fits(element: &Element, part: &[u8]) -> bool {
    match element {
        // The default block is one of the one to six.
        Element::Controller(_) => {
            count_speed_blocks(part).is_some_and(|count| (1..=6).contains(&count))
        }
        Element::Tachometer(_) => register_blocks_fill(part, 2),
        Element::ExternalRgb(_) => register_blocks_fill(part, 3),
        // Number and locale are fixed, the text is open (Table 29).
        Element::Text(_) => part.len() >= 3,
        Element::Zone(_) => part.len() == 27,
        _ => part.is_empty(),
    }
}

/// 9: no reserved code and no other content that rule 9 names. The part fits.
pub fn codes_good(element: &Element, part: &[u8]) -> bool {
    if let Some(attachment) = element.attachment() {
        if !attachment_good(attachment) {
            return false;
        }
    }
    match element {
        Element::AnalogueSensor(e) => {
            e.thermal_type == 1 && e.calibration.iter().all(|&value| value <= 1023)
        }
        // The ten-bit scale of 8.8; no order among the three.
        Element::WaterLevel(e) => [e.full, e.empty, e.warning]
            .iter()
            .all(|&value| value <= 1023),
        // Table 28.
        Element::ExternalRgb(e) => (1..=3).contains(&e.chip_identifier),
        Element::Fan(e) | Element::Pump(e) => {
            e.tachometer.is_used() || e.pulses_per_revolution == 0
        }
        Element::StatusLed(e) => e.lights.iter().all(light_good),
        Element::Controller(_) => {
            SpeedBlocks { rest: part }.all(|block| block.pairs.entries() != 0)
        }
        // Number and locale stand before the text.
        Element::Text(_) => part[0] != 0 && well_formed(&part[3..]),
        _ => true,
    }
}

/// Table 8; the address must be of the kind that the bus type has.
fn attachment_good(attachment: &Attachment) -> bool {
    matches!(
        (attachment.bus_type, attachment.address),
        (0..=2, Address::Bus(_)) | (3, Address::Select(_))
    )
}

/// Tables 16 and 17; beside an unused pin neither is checked.
fn light_good(light: &Light) -> bool {
    let colour_good = (1..=5).contains(&light.colour);
    let purpose_good = (0..=4).contains(&light.purpose);
    !light.pin.is_used() || (colour_good && purpose_good)
}

/// 23: a bus type that is no longer in use. Reserved ones are 9, and come before it.
pub fn bus_in_use(element: &Element, rules: Rules) -> bool {
    element
        .attachment()
        .is_none_or(|attachment| rules.buses().contains(&attachment.bus_type))
}

/// 10: every used pin is one of the chip, exists, is permitted and keeps the rising order.
pub fn pins_good(element: &Element, chip: Chip) -> bool {
    if let Some(attachment) = element.attachment() {
        return match attachment.address {
            Address::Bus(_) => true,
            Address::Select(pin) => pin.is_of(chip, &CHIP_SELECT),
        };
    }
    match element {
        Element::AnalogueSensor(e) => e.pin.is_of(chip, &ANALOGUE),
        Element::WaterLevel(e) => e.pin.is_of(chip, &ANALOGUE),
        Element::Voltage(e) => e.pin.is_of(chip, &ANALOGUE),
        Element::Current(e) => e.pin.is_of(chip, &ANALOGUE),
        Element::Fan(e) | Element::Pump(e) => match e.tachometer.is_used() {
            true => rising(&[e.pwm, e.tachometer], chip),
            false => rising(&[e.pwm], chip),
        },
        Element::RgbLed(e) => rising(&[e.red, e.green, e.blue], chip),
        Element::StatusLed(e) => e
            .lights
            .iter()
            .all(|light| !light.pin.is_used() || light.pin.is_of(chip, &STATUS_LED)),
        _ => true,
    }
}

/// All on the fan list of the chip, in strictly rising order of it; gaps are allowed.
fn rising(pins: &[Pin], chip: Chip) -> bool {
    let mut left = FAN_LIST.iter();
    pins.iter()
        .all(|pin| left.any(|&listed| pin.is_of(chip, &[listed])))
}
