//! The fourteen kinds of element.

use std::fmt;

/// A kind of element, with its identifier as its discriminant. It prints as its name.
///
/// ```
/// use esa::Kind;
/// assert_eq!(Kind::Fan.id(), 0x03);
/// assert_eq!(Kind::of(0x0C), Some(Kind::String));
/// assert_eq!(Kind::of(0x0F), None);
/// assert_eq!(Kind::Pump.to_string(), "PWM pump");
/// ```
#[derive(Clone, Copy, Debug, PartialEq, Eq, Hash, PartialOrd, Ord)]
#[repr(u8)]
pub enum Kind {
    /// A digital thermal sensor, on a bus.
    DigitalSensor = 0x01,
    /// An analogue thermal sensor, on a pin.
    AnalogueSensor = 0x02,
    /// A PWM fan.
    Fan = 0x03,
    /// A status LED of up to three lamps.
    StatusLed = 0x04,
    /// A water level sensor.
    WaterLevel = 0x05,
    /// A PWM pump.
    Pump = 0x06,
    /// A voltage sensor.
    Voltage = 0x07,
    /// A current sensor.
    Current = 0x08,
    /// An external PWM controller, with speed blocks.
    PwmController = 0x09,
    /// An external tachometer, with two blocks.
    Tachometer = 0x0A,
    /// A zone descriptor.
    Zone = 0x0B,
    /// A string.
    String = 0x0C,
    /// An RGB LED on a chip of its own, with three blocks.
    ExternalRgbLed = 0x0D,
    /// An RGB LED on the controller.
    RgbLed = 0x0E,
}

impl Kind {
    /// Every kind, in the order of their identifiers.
    pub const ALL: [Kind; 14] = [
        Kind::DigitalSensor,
        Kind::AnalogueSensor,
        Kind::Fan,
        Kind::StatusLed,
        Kind::WaterLevel,
        Kind::Pump,
        Kind::Voltage,
        Kind::Current,
        Kind::PwmController,
        Kind::Tachometer,
        Kind::Zone,
        Kind::String,
        Kind::ExternalRgbLed,
        Kind::RgbLed,
    ];

    /// The identifier, 01h to 0Eh.
    pub const fn id(self) -> u8 {
        self as u8
    }

    /// The kind with this identifier.
    pub fn of(id: u8) -> Option<Kind> {
        Kind::ALL.into_iter().find(|kind| kind.id() == id)
    }

    /// What it is called, as `esa_kind` of the header has it.
    pub const fn name(self) -> &'static str {
        match self {
            Kind::DigitalSensor => "digital thermal sensor",
            Kind::AnalogueSensor => "analogue thermal sensor",
            Kind::Fan => "PWM fan",
            Kind::StatusLed => "status LED",
            Kind::WaterLevel => "water level sensor",
            Kind::Pump => "PWM pump",
            Kind::Voltage => "voltage sensor",
            Kind::Current => "current sensor",
            Kind::PwmController => "external PWM controller",
            Kind::Tachometer => "external tachometer",
            Kind::Zone => "zone descriptor",
            Kind::String => "string",
            Kind::ExternalRgbLed => "external RGB LED",
            Kind::RgbLed => "RGB LED",
        }
    }
}

impl fmt::Display for Kind {
    fn fmt(&self, to: &mut fmt::Formatter) -> fmt::Result {
        to.write_str(self.name())
    }
}
