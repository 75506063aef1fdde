//! The records: one struct for each kind of element, and the description.
//!
//! Records hold no revision, no lengths and no reserved places. Their types are wide enough to
//! hold numbers too large for their fields, which is what refusal 25 meets. Each used pin carries its chip.

use crate::pins::Pin;
use crate::units::{Centimetres, Deciamps, Decivolts, DegreesCentigrade, FourMilliamps, Rpm};

/// 000, Table 4.
#[derive(Clone, Copy, Debug, PartialEq, Eq)]
pub struct Description {
    pub device_type: u8,
    pub string: u8,
    /// Field of 24 bits.
    pub serial: u32,
    pub self_powered: bool,
    /// Field of 7 bits.
    pub power: FourMilliamps,
    pub hardware: [Pin; 3],
}

/// Three axis numbers. Unknown only when all three are FFh (000, 8.4).
#[derive(Clone, Copy, Debug, PartialEq, Eq)]
pub struct Position {
    pub x: Centimetres,
    pub y: Centimetres,
    pub z: Centimetres,
}

/// Bytes 3 to 7 of every element but strings and zones.
#[derive(Clone, Copy, Debug, PartialEq, Eq)]
pub struct Common {
    pub string: u8,
    pub position: Position,
    pub zone: u8,
}

/// A device address is either a seven-bit bus address or a chip select pin (000, 8.3.2).
#[derive(Clone, Copy, Debug, PartialEq, Eq)]
pub enum Address {
    /// The seven-bit number itself, without the reserved eighth bit.
    Bus(u8),
    Select(Pin),
}

/// Bus type and address, as 01h, 09h, 0Ah and 0Dh carry them.
#[derive(Clone, Copy, Debug, PartialEq, Eq)]
pub struct Attachment {
    /// Field of 4 bits.
    pub bus_type: u8,
    pub address: Address,
}

/// 01h, 000, Table 11.
#[derive(Clone, Copy, Debug, PartialEq, Eq)]
pub struct DigitalSensor {
    pub common: Common,
    pub attachment: Attachment,
    pub lsb_register: u16,
    pub msb_register: u16,
    pub minimum_value: u16,
    pub minimum_temp: DegreesCentigrade,
    pub maximum_value: u16,
    pub maximum_temp: DegreesCentigrade,
}

/// 02h, 000, Table 12.
#[derive(Clone, Copy, Debug, PartialEq, Eq)]
pub struct AnalogueSensor {
    pub common: Common,
    /// Field of 4 bits, as Table 13's codes need.
    pub thermal_type: u8,
    pub pin: Pin,
    /// VALUE0, VALUE25, VALUE50, VALUE75, VALUE100.
    pub calibration: [u16; 5],
}

/// 03h, 000, Table 14; a pump, 06h, has the same format (8.9).
#[derive(Clone, Copy, Debug, PartialEq, Eq)]
pub struct Fan {
    pub common: Common,
    pub pwm: Pin,
    pub tachometer: Pin,
    pub pulses_per_revolution: u8,
    pub minimum_rpm: Rpm,
    pub maximum_rpm: Rpm,
    pub minimum_duty: u8,
}

/// One colour sub-element of 04h.
#[derive(Clone, Copy, Debug, PartialEq, Eq)]
pub struct Light {
    pub pin: Pin,
    /// Field of 4 bits.
    pub colour: u8,
    /// Field of 4 bits.
    pub purpose: u8,
}

/// 04h, 000, Table 15.
#[derive(Clone, Copy, Debug, PartialEq, Eq)]
pub struct StatusLed {
    pub common: Common,
    pub lights: [Light; 3],
}

/// 05h, 000, Table 18.
#[derive(Clone, Copy, Debug, PartialEq, Eq)]
pub struct WaterLevel {
    pub common: Common,
    pub pin: Pin,
    pub full: u16,
    pub empty: u16,
    pub warning: u16,
}

/// 07h, 000, Table 19.
#[derive(Clone, Copy, Debug, PartialEq, Eq)]
pub struct Voltage {
    pub common: Common,
    pub pin: Pin,
    pub at_maximum: Decivolts,
    pub at_minimum: Decivolts,
}

/// 08h, 000, Table 20.
#[derive(Clone, Copy, Debug, PartialEq, Eq)]
pub struct Current {
    pub common: Common,
    pub pin: Pin,
    pub at_minimum: Deciamps,
    pub at_maximum: Deciamps,
}

/// 09h, 000, Table 21. The speed blocks are the variable part.
#[derive(Clone, Copy, Debug, PartialEq, Eq)]
pub struct Controller {
    pub common: Common,
    pub attachment: Attachment,
}

/// 0Ah, 000, Table 24. The two register blocks are the variable part.
#[derive(Clone, Copy, Debug, PartialEq, Eq)]
pub struct Tachometer {
    pub common: Common,
    pub attachment: Attachment,
}

/// 0Dh, 000, Table 27. The three register blocks are the variable part.
#[derive(Clone, Copy, Debug, PartialEq, Eq)]
pub struct ExternalRgb {
    pub common: Common,
    pub attachment: Attachment,
    pub chip_identifier: u8,
}

/// 0Eh, 000, Table 26.
#[derive(Clone, Copy, Debug, PartialEq, Eq)]
pub struct RgbLed {
    pub common: Common,
    pub red: Pin,
    pub green: Pin,
    pub blue: Pin,
}

/// 0Ch, 000, Table 29. All bytes after the header, the variable part, are its whole record.
#[derive(Clone, Copy, Debug, PartialEq, Eq)]
pub struct Text;

/// 0Bh, 000, Table 30. All bytes after the header, the variable part, are its whole record.
#[derive(Clone, Copy, Debug, PartialEq, Eq)]
pub struct Zone;

/// The fourteen kinds.
#[derive(Clone, Copy, Debug, PartialEq, Eq)]
pub enum Element {
    DigitalSensor(DigitalSensor),
    AnalogueSensor(AnalogueSensor),
    Fan(Fan),
    StatusLed(StatusLed),
    WaterLevel(WaterLevel),
    Pump(Fan),
    Voltage(Voltage),
    Current(Current),
    Controller(Controller),
    Tachometer(Tachometer),
    Zone(Zone),
    Text(Text),
    ExternalRgb(ExternalRgb),
    RgbLed(RgbLed),
}

impl Element {
    pub fn identifier(&self) -> u8 {
        use crate::element::id;
        match self {
            Element::DigitalSensor(_) => id::DIGITAL_SENSOR,
            Element::AnalogueSensor(_) => id::ANALOGUE_SENSOR,
            Element::Fan(_) => id::FAN,
            Element::StatusLed(_) => id::STATUS_LED,
            Element::WaterLevel(_) => id::WATER_LEVEL,
            Element::Pump(_) => id::PUMP,
            Element::Voltage(_) => id::VOLTAGE,
            Element::Current(_) => id::CURRENT,
            Element::Controller(_) => id::CONTROLLER,
            Element::Tachometer(_) => id::TACHOMETER,
            Element::Zone(_) => id::ZONE,
            Element::Text(_) => id::TEXT,
            Element::ExternalRgb(_) => id::EXTERNAL_RGB,
            Element::RgbLed(_) => id::RGB_LED,
        }
    }

    /// String index, position and zone; strings and zones have none of the three together.
    pub fn common(&self) -> Option<&Common> {
        match self {
            Element::DigitalSensor(e) => Some(&e.common),
            Element::AnalogueSensor(e) => Some(&e.common),
            Element::Fan(e) | Element::Pump(e) => Some(&e.common),
            Element::StatusLed(e) => Some(&e.common),
            Element::WaterLevel(e) => Some(&e.common),
            Element::Voltage(e) => Some(&e.common),
            Element::Current(e) => Some(&e.common),
            Element::Controller(e) => Some(&e.common),
            Element::Tachometer(e) => Some(&e.common),
            Element::ExternalRgb(e) => Some(&e.common),
            Element::RgbLed(e) => Some(&e.common),
            Element::Zone(_) | Element::Text(_) => None,
        }
    }

    /// Bus type and address, of the four kinds that have them.
    pub fn attachment(&self) -> Option<&Attachment> {
        match self {
            Element::DigitalSensor(e) => Some(&e.attachment),
            Element::Controller(e) => Some(&e.attachment),
            Element::Tachometer(e) => Some(&e.attachment),
            Element::ExternalRgb(e) => Some(&e.attachment),
            _ => None,
        }
    }

    /// The same, to be changed.
    pub fn attachment_mut(&mut self) -> Option<&mut Attachment> {
        match self {
            Element::DigitalSensor(e) => Some(&mut e.attachment),
            Element::Controller(e) => Some(&mut e.attachment),
            Element::Tachometer(e) => Some(&mut e.attachment),
            Element::ExternalRgb(e) => Some(&mut e.attachment),
            _ => None,
        }
    }
}
