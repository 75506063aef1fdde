//! From bytes to records: identifiers, lengths and offsets of 000, clause 8.

use crate::answer::DESCRIPTION_LENGTH;
use crate::pins::Pin;
use crate::record::*;
use crate::settings::Chip;
use crate::units::{Centimetres, Deciamps, Decivolts, DegreesCentigrade, FourMilliamps, Rpm};

/// The identifiers; those of string and zone stand in the text under Tables 29 and 30.
pub mod id {
    pub const DIGITAL_SENSOR: u8 = 0x01;
    pub const ANALOGUE_SENSOR: u8 = 0x02;
    pub const FAN: u8 = 0x03;
    pub const STATUS_LED: u8 = 0x04;
    pub const WATER_LEVEL: u8 = 0x05;
    pub const PUMP: u8 = 0x06;
    pub const VOLTAGE: u8 = 0x07;
    pub const CURRENT: u8 = 0x08;
    pub const CONTROLLER: u8 = 0x09;
    pub const TACHOMETER: u8 = 0x0A;
    pub const ZONE: u8 = 0x0B;
    pub const TEXT: u8 = 0x0C;
    pub const EXTERNAL_RGB: u8 = 0x0D;
    pub const RGB_LED: u8 = 0x0E;

    /// The list whose absence is refusal 7.
    pub const ALL: [u8; 14] = [
        DIGITAL_SENSOR,
        ANALOGUE_SENSOR,
        FAN,
        STATUS_LED,
        WATER_LEVEL,
        PUMP,
        VOLTAGE,
        CURRENT,
        CONTROLLER,
        TACHOMETER,
        ZONE,
        TEXT,
        EXTERNAL_RGB,
        RGB_LED,
    ];

    /// Those on a serial bus, with a bus type and a device address (000, 8.3.2).
    pub const ON_A_BUS: [u8; 4] = [DIGITAL_SENSOR, CONTROLLER, TACHOMETER, EXTERNAL_RGB];
}

/// Identifier and two-byte length.
pub const HEADER_LENGTH: usize = 3;

/// Bytes from the element's start to its variable part; for kinds without one, the whole length.
pub fn fixed_length(identifier: u8) -> usize {
    match identifier {
        id::DIGITAL_SENSOR => 21,
        id::ANALOGUE_SENSOR => 20,
        id::FAN | id::PUMP => 16,
        id::WATER_LEVEL => 15,
        id::STATUS_LED | id::CURRENT => 14,
        id::TACHOMETER | id::EXTERNAL_RGB => 12,
        id::VOLTAGE | id::CONTROLLER | id::RGB_LED => 11,
        _ => HEADER_LENGTH,
    }
}

/// A number of two bytes, lowest byte first (000, 3.4.3).
pub fn word(bytes: &[u8], at: usize) -> u16 {
    u16::from_le_bytes([bytes[at], bytes[at + 1]])
}

/// The record of the first 16 bytes, its pins on this chip.
pub fn read_description(table: &[u8], chip: Chip) -> Description {
    assert!(table.len() >= DESCRIPTION_LENGTH);
    Description {
        device_type: table[3],
        string: table[4],
        serial: u32::from_le_bytes([table[5], table[6], table[7], 0]),
        self_powered: table[8] >= 0x80,
        power: FourMilliamps(table[8] & 0x7F),
        hardware: [9, 10, 11].map(|at| Pin::on(chip, table[at])),
    }
}

/// The record and the variable part of one whole element, header included, its pins on this chip.
/// `None` when the identifier is not in the list or the fixed fields do not fit its length.
pub fn read_element(bytes: &[u8], chip: Chip) -> Option<(Element, &[u8])> {
    let fixed = fixed_length(bytes[0]);
    if !id::ALL.contains(&bytes[0]) || bytes.len() < fixed {
        return None;
    }
    let record = match bytes[0] {
        id::DIGITAL_SENSOR => Element::DigitalSensor(read_digital_sensor(bytes, chip)),
        id::ANALOGUE_SENSOR => Element::AnalogueSensor(read_analogue_sensor(bytes, chip)),
        id::FAN => Element::Fan(read_fan(bytes, chip)),
        id::STATUS_LED => Element::StatusLed(read_status_led(bytes, chip)),
        id::WATER_LEVEL => Element::WaterLevel(read_water_level(bytes, chip)),
        id::PUMP => Element::Pump(read_fan(bytes, chip)),
        id::VOLTAGE => Element::Voltage(read_voltage(bytes, chip)),
        id::CURRENT => Element::Current(read_current(bytes, chip)),
        id::CONTROLLER => Element::Controller(Controller {
            common: read_common(bytes),
            attachment: read_attachment(bytes, chip),
        }),
        id::TACHOMETER => Element::Tachometer(Tachometer {
            common: read_common(bytes),
            attachment: read_attachment(bytes, chip),
        }),
        id::EXTERNAL_RGB => Element::ExternalRgb(ExternalRgb {
            common: read_common(bytes),
            attachment: read_attachment(bytes, chip),
            chip_identifier: bytes[11],
        }),
        id::RGB_LED => Element::RgbLed(read_rgb_led(bytes, chip)),
        id::ZONE => Element::Zone(Zone),
        _ => Element::Text(Text),
    };
    Some((record, &bytes[fixed..]))
}

fn read_common(bytes: &[u8]) -> Common {
    Common {
        string: bytes[3],
        position: Position {
            x: Centimetres(bytes[4]),
            y: Centimetres(bytes[5]),
            z: Centimetres(bytes[6]),
        },
        zone: bytes[7],
    }
}

/// Byte 8 has the bus type in bits 3-0, byte 9 the address; byte 10 is reserved (Tables 9, 10).
fn read_attachment(bytes: &[u8], chip: Chip) -> Attachment {
    let bus_type = bytes[8] & 0x0F;
    let address = if bus_type == 3 {
        Address::Select(Pin::on(chip, bytes[9]))
    } else {
        Address::Bus(bytes[9] >> 1)
    };
    Attachment { bus_type, address }
}

fn read_digital_sensor(bytes: &[u8], chip: Chip) -> DigitalSensor {
    DigitalSensor {
        common: read_common(bytes),
        attachment: read_attachment(bytes, chip),
        lsb_register: word(bytes, 11),
        msb_register: word(bytes, 13),
        minimum_value: word(bytes, 15),
        minimum_temp: DegreesCentigrade(bytes[17]),
        maximum_value: word(bytes, 18),
        maximum_temp: DegreesCentigrade(bytes[20]),
    }
}

fn read_analogue_sensor(bytes: &[u8], chip: Chip) -> AnalogueSensor {
    AnalogueSensor {
        common: read_common(bytes),
        thermal_type: bytes[8] & 0x0F,
        pin: Pin::on(chip, bytes[9]),
        calibration: [10, 12, 14, 16, 18].map(|at| word(bytes, at)),
    }
}

fn read_fan(bytes: &[u8], chip: Chip) -> Fan {
    Fan {
        common: read_common(bytes),
        pwm: Pin::on(chip, bytes[8]),
        tachometer: Pin::on(chip, bytes[9]),
        pulses_per_revolution: bytes[10],
        minimum_rpm: Rpm(word(bytes, 11)),
        maximum_rpm: Rpm(word(bytes, 13)),
        minimum_duty: bytes[15],
    }
}

fn read_status_led(bytes: &[u8], chip: Chip) -> StatusLed {
    let light = |at: usize| Light {
        pin: Pin::on(chip, bytes[at]),
        colour: bytes[at + 1] >> 4,
        purpose: bytes[at + 1] & 0x0F,
    };
    StatusLed {
        common: read_common(bytes),
        lights: [light(8), light(10), light(12)],
    }
}

fn read_water_level(bytes: &[u8], chip: Chip) -> WaterLevel {
    WaterLevel {
        common: read_common(bytes),
        pin: Pin::on(chip, bytes[8]),
        full: word(bytes, 9),
        empty: word(bytes, 11),
        warning: word(bytes, 13),
    }
}

/// VMAX and VMIN are a byte each, in the order drawn, as the text's 140 decivolts need (8.10).
fn read_voltage(bytes: &[u8], chip: Chip) -> Voltage {
    Voltage {
        common: read_common(bytes),
        pin: Pin::on(chip, bytes[8]),
        at_maximum: Decivolts(bytes[9]),
        at_minimum: Decivolts(bytes[10]),
    }
}

fn read_current(bytes: &[u8], chip: Chip) -> Current {
    Current {
        common: read_common(bytes),
        pin: Pin::on(chip, bytes[8]),
        at_minimum: Deciamps(word(bytes, 10)),
        at_maximum: Deciamps(word(bytes, 12)),
    }
}

fn read_rgb_led(bytes: &[u8], chip: Chip) -> RgbLed {
    RgbLed {
        common: read_common(bytes),
        red: Pin::on(chip, bytes[8]),
        green: Pin::on(chip, bytes[9]),
        blue: Pin::on(chip, bytes[10]),
    }
}
