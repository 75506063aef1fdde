//! Records for the writer: good ones out of accepted tables, then bent at the boundaries.

use super::texts::spoil;
use super::valid::valid;
use crate::access::walk;
use crate::element::{read_description, read_element};
use crate::pins::Pin;
use crate::random::Random;
use crate::record::*;
use crate::settings::{Chip, Rules, Settings};
use crate::units::FourMilliamps;

/// Values around the ends of the fields of 3, 4 and 7 bits.
const EDGES: [u8; 14] = [0, 1, 2, 3, 4, 5, 6, 7, 15, 16, 127, 128, 254, 255];

/// Around the end of the ten-bit scale.
const LEVELS: [u16; 6] = [0, 1022, 1023, 1024, 1025, 65535];

/// The description of an accepted table, at times bent; its pins are of this chip.
pub fn some_description(random: &mut Random, pins: Chip) -> Description {
    let mut description = read_description(&valid(random, pins.into()), pins);
    for _ in 0..random.below(3) {
        bend_description(random, pins, &mut description);
    }
    description
}

fn bend_description(random: &mut Random, pins: Chip, description: &mut Description) {
    match random.below(5) {
        0 => {
            let serials = [0, 0xFF_FFFF, 0x100_0000, 0x8000_0000, u32::MAX];
            description.serial = *random.pick(&serials);
        }
        1 => description.power = FourMilliamps(*random.pick(&[0, 125, 126, 127, 128, 255])),
        2 => description.self_powered = !description.self_powered,
        3 => description.device_type = *random.pick(&[0, 1, 3, 4, 255]),
        _ => description.hardware[random.below(3)] = any_pin(random, pins),
    }
}

/// An element of a table of the archive with its part, at times bent; its pins are of this chip.
pub fn some_element(random: &mut Random, pins: Chip) -> (Element, Vec<u8>) {
    let (mut element, mut part) = good_element(random, pins);
    for _ in 0..*random.pick(&[0, 0, 1, 1, 2]) {
        bend(random, pins, &mut element);
    }
    if random.chance(25) {
        bend_part(random, &mut part);
    }
    (element, part)
}

/// An element of a table of the archive, so that a bus device may be in block mode.
pub fn good_element(random: &mut Random, pins: Chip) -> (Element, Vec<u8>) {
    loop {
        let table = valid(random, Settings::new(pins, Rules::Archive));
        let elements: Vec<&[u8]> = walk(&table).map(|(_, bytes)| bytes).collect();
        if elements.is_empty() {
            continue;
        }
        let chosen = elements[random.below(elements.len())];
        if let Some((element, part)) = read_element(chosen, pins) {
            return (element, part.to_vec());
        }
    }
}

/// Any pin byte, rather one that is near the permitted ones.
fn any_pin(random: &mut Random, pins: Chip) -> Pin {
    const NEAR: [u8; 18] = [
        0x00, 0x04, 0x05, 0x06, 0x07, 0x08, 0x10, 0x11, 0x13, 0x14, 0x23, 0x24, 0x27, 0x28, 0x30,
        0x31, 0xEE, 0xFF,
    ];
    if random.chance(70) {
        Pin::on(pins, *random.pick(&NEAR))
    } else {
        Pin::on(pins, random.byte())
    }
}

fn bend(random: &mut Random, pins: Chip, element: &mut Element) {
    match element {
        Element::DigitalSensor(e) => bend_attachment(random, pins, &mut e.attachment),
        Element::Controller(e) => bend_attachment(random, pins, &mut e.attachment),
        Element::Tachometer(e) => bend_attachment(random, pins, &mut e.attachment),
        Element::ExternalRgb(e) => match random.chance(30) {
            true => e.chip_identifier = *random.pick(&EDGES),
            false => bend_attachment(random, pins, &mut e.attachment),
        },
        Element::AnalogueSensor(e) => match random.below(3) {
            0 => e.thermal_type = *random.pick(&EDGES),
            1 => e.pin = any_pin(random, pins),
            _ => {
                e.calibration[random.below(5)] = *random.pick(&LEVELS);
            }
        },
        Element::WaterLevel(e) => match random.below(4) {
            0 => e.full = *random.pick(&LEVELS),
            1 => e.empty = *random.pick(&LEVELS),
            2 => e.warning = *random.pick(&LEVELS),
            _ => e.pin = any_pin(random, pins),
        },
        Element::Fan(e) | Element::Pump(e) => match random.below(3) {
            0 => e.pwm = any_pin(random, pins),
            1 => e.tachometer = any_pin(random, pins),
            _ => e.pulses_per_revolution = *random.pick(&[0, 1, 255]),
        },
        Element::StatusLed(e) => {
            let light = &mut e.lights[random.below(3)];
            match random.below(3) {
                0 => light.pin = any_pin(random, pins),
                1 => light.colour = *random.pick(&EDGES),
                _ => light.purpose = *random.pick(&EDGES),
            }
        }
        Element::Voltage(e) => e.pin = any_pin(random, pins),
        Element::Current(e) => e.pin = any_pin(random, pins),
        Element::RgbLed(e) => {
            let three = [&mut e.red, &mut e.green, &mut e.blue];
            *three.into_iter().nth(random.below(3)).expect("three pins") = any_pin(random, pins);
        }
        Element::Text(_) | Element::Zone(_) => (),
    }
}

fn bend_attachment(random: &mut Random, pins: Chip, attachment: &mut Attachment) {
    match random.below(3) {
        0 => attachment.bus_type = *random.pick(&EDGES),
        1 => attachment.address = Address::Bus(*random.pick(&EDGES)),
        _ => attachment.address = Address::Select(any_pin(random, pins)),
    }
}

/// A part grown, cut, emptied or changed.
fn bend_part(random: &mut Random, part: &mut Vec<u8>) {
    match random.below(10) {
        8..=9 if part.len() > 3 => {
            let mut end = part.split_off(3);
            spoil(random, &mut end);
            part.extend(end);
        }
        0 => part.clear(),
        1 => part.push(0),
        2 => part.extend([1, 1, 0, 0, 0, 0]),
        3 => {
            part.pop();
        }
        4 => part.truncate(random.below(4)),
        5 => *part = vec![0; random.between(1, 14)],
        _ if part.is_empty() => part.push(1),
        _ => {
            let at = random.below(part.len().min(4));
            part[at] = *random.pick(&[0, 1, 2, 255]);
        }
    }
}
