//! From records to bytes: the fixed fields of 000, clause 8, with reserved places zero.
//!
//! Only records that fit their fields come here (refusal 25 goes before all writing).

use crate::answer::DESCRIPTION_LENGTH;
use crate::element::{fixed_length, HEADER_LENGTH};
use crate::pins::Pin;
use crate::record::*;

/// The longest run of fixed fields, header included: 01h.
const LONGEST: usize = 21;

/// The bytes of an element up to its variable part. The length field is still 0.
pub struct Fixed {
    bytes: [u8; LONGEST],
    length: usize,
}

impl Fixed {
    pub fn bytes(&self) -> &[u8] {
        &self.bytes[..self.length]
    }

    fn word(&mut self, at: usize, value: u16) {
        self.bytes[at..at + 2].copy_from_slice(&value.to_le_bytes());
    }

    fn common(&mut self, common: &Common) {
        let Position { x, y, z } = common.position;
        self.bytes[3..8].copy_from_slice(&[common.string, x.0, y.0, z.0, common.zone]);
    }

    /// Bus type in bits 3-0 of byte 8; a bus address in bits 7-1 of byte 9 (Table 9).
    fn attachment(&mut self, attachment: &Attachment) {
        self.bytes[8] = attachment.bus_type;
        self.bytes[9] = match attachment.address {
            Address::Bus(address) => address << 1,
            Address::Select(pin) => pin.byte(),
        };
    }
}

/// The description as a table of 16 bytes.
pub fn description(description: &Description) -> [u8; DESCRIPTION_LENGTH] {
    let [low, middle, high, _] = description.serial.to_le_bytes();
    let self_powered = u8::from(description.self_powered) << 7;
    let mut bytes = [0; DESCRIPTION_LENGTH];
    bytes[0] = 0x01;
    bytes[1] = DESCRIPTION_LENGTH as u8;
    bytes[3] = description.device_type;
    bytes[4] = description.string;
    bytes[5..8].copy_from_slice(&[low, middle, high]);
    bytes[8] = self_powered | description.power.0;
    bytes[9..12].copy_from_slice(&description.hardware.map(Pin::byte));
    bytes
}

/// The fixed bytes of an element.
pub fn fixed(element: &Element) -> Fixed {
    let identifier = element.identifier();
    let mut fixed = Fixed {
        bytes: [0; LONGEST],
        length: fixed_length(identifier),
    };
    fixed.bytes[0] = identifier;
    if let Some(common) = element.common() {
        fixed.common(common);
    }
    if let Some(attachment) = element.attachment() {
        fixed.attachment(attachment);
    }
    match element {
        Element::DigitalSensor(e) => digital_sensor(e, &mut fixed),
        Element::AnalogueSensor(e) => analogue_sensor(e, &mut fixed),
        Element::Fan(e) | Element::Pump(e) => fan(e, &mut fixed),
        Element::StatusLed(e) => status_led(e, &mut fixed),
        Element::WaterLevel(e) => water_level(e, &mut fixed),
        Element::Voltage(e) => {
            fixed.bytes[8] = e.pin.byte();
            fixed.bytes[9..11].copy_from_slice(&[e.at_maximum.0, e.at_minimum.0]);
        }
        Element::Current(e) => current(e, &mut fixed),
        Element::RgbLed(e) => {
            fixed.bytes[8..11].copy_from_slice(&[e.red, e.green, e.blue].map(Pin::byte));
        }
        Element::ExternalRgb(e) => fixed.bytes[11] = e.chip_identifier,
        // Nothing but header, common fields and attachment before the variable part.
        Element::Controller(_) | Element::Tachometer(_) => (),
        Element::Zone(_) | Element::Text(_) => debug_assert_eq!(fixed.length, HEADER_LENGTH),
    }
    fixed
}

fn digital_sensor(e: &DigitalSensor, fixed: &mut Fixed) {
    fixed.word(11, e.lsb_register);
    fixed.word(13, e.msb_register);
    fixed.word(15, e.minimum_value);
    fixed.bytes[17] = e.minimum_temp.0;
    fixed.word(18, e.maximum_value);
    fixed.bytes[20] = e.maximum_temp.0;
}

fn analogue_sensor(e: &AnalogueSensor, fixed: &mut Fixed) {
    fixed.bytes[8] = e.thermal_type;
    fixed.bytes[9] = e.pin.byte();
    for (step, &value) in e.calibration.iter().enumerate() {
        fixed.word(10 + 2 * step, value);
    }
}

fn fan(e: &Fan, fixed: &mut Fixed) {
    fixed.bytes[8] = e.pwm.byte();
    fixed.bytes[9] = e.tachometer.byte();
    fixed.bytes[10] = e.pulses_per_revolution;
    fixed.word(11, e.minimum_rpm.0);
    fixed.word(13, e.maximum_rpm.0);
    fixed.bytes[15] = e.minimum_duty;
}

fn status_led(e: &StatusLed, fixed: &mut Fixed) {
    for (step, light) in e.lights.iter().enumerate() {
        fixed.bytes[8 + 2 * step] = light.pin.byte();
        fixed.bytes[9 + 2 * step] = light.colour << 4 | light.purpose;
    }
}

fn water_level(e: &WaterLevel, fixed: &mut Fixed) {
    fixed.bytes[8] = e.pin.byte();
    fixed.word(9, e.full);
    fixed.word(11, e.empty);
    fixed.word(13, e.warning);
}

fn current(e: &Current, fixed: &mut Fixed) {
    fixed.bytes[8] = e.pin.byte();
    fixed.word(10, e.at_minimum.0);
    fixed.word(12, e.at_maximum.0);
}
