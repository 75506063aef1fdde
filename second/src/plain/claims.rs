//! Who claims which pin, and who clashes (rule 15).

use super::Found;
use crate::answer::{number, Refusal};
use crate::pins::{Pin, FAULT_LED, I2C_BUS, REFERENCE, SPI_BUS};
use crate::record::{Address, Description, Element};

/// How a pin is claimed.
#[derive(Clone, Copy, Debug, PartialEq, Eq)]
pub enum Use {
    Shared,
    Select,
    Alone,
}

/// One claim on the pin of this byte, with the place that answers for it. All are of one chip.
#[derive(Clone, Copy, Debug)]
pub struct Claim {
    pub pin: u8,
    pub usage: Use,
    pub place: usize,
}

/// All claims in order: the fault LED, hardware revision 0 to 2, then each element in turn.
pub fn claims(description: &Description, found: &[Found]) -> Vec<Claim> {
    let mut claims = of_description(description);
    for one in found {
        claims.extend(of_element(one.place, &one.element));
    }
    claims
}

/// The fault LED's claim, and those of the hardware revision pins that are used.
pub fn of_description(description: &Description) -> Vec<Claim> {
    let hardware = description.hardware.iter().filter(|pin| pin.is_used());
    let hardware = hardware.map(|pin| pin.byte());
    let alone = |pin: u8| Claim {
        pin,
        usage: Use::Alone,
        place: 0,
    };
    [FAULT_LED].into_iter().chain(hardware).map(alone).collect()
}

/// What the element at this place claims: its shared pins, then its own.
pub fn of_element(place: usize, element: &Element) -> Vec<Claim> {
    let shared = shared_pins(element).into_iter().map(|pin| Claim {
        pin,
        usage: Use::Shared,
        place,
    });
    let own = own_pins(element).into_iter().map(|pin| Claim {
        pin: pin.byte(),
        usage: own_use(element),
        place,
    });
    shared.chain(own).collect()
}

/// P0.3 and P0.4 for bus types 0 to 2, P0.0 to P0.2 for SPI, P0.7 for 02h, 05h, 07h and 08h.
fn shared_pins(element: &Element) -> Vec<u8> {
    match (element, element.attachment()) {
        (_, Some(attachment)) => match attachment.address {
            Address::Bus(_) => I2C_BUS.to_vec(),
            Address::Select(_) => SPI_BUS.to_vec(),
        },
        (Element::AnalogueSensor(_) | Element::WaterLevel(_), None) => REFERENCE.to_vec(),
        (Element::Voltage(_) | Element::Current(_), None) => REFERENCE.to_vec(),
        _ => Vec::new(),
    }
}

/// The element's own used pins in field order, a chip select being one.
pub fn own_pins(element: &Element) -> Vec<Pin> {
    let fields: Vec<Pin> = match element {
        Element::AnalogueSensor(e) => vec![e.pin],
        Element::WaterLevel(e) => vec![e.pin],
        Element::Voltage(e) => vec![e.pin],
        Element::Current(e) => vec![e.pin],
        Element::Fan(e) | Element::Pump(e) => vec![e.pwm, e.tachometer],
        Element::StatusLed(e) => e.lights.iter().map(|light| light.pin).collect(),
        Element::RgbLed(e) => vec![e.red, e.green, e.blue],
        _ => match element.attachment().map(|attachment| attachment.address) {
            Some(Address::Select(pin)) => vec![pin],
            _ => Vec::new(),
        },
    };
    fields.into_iter().filter(|pin| pin.is_used()).collect()
}

fn own_use(element: &Element) -> Use {
    if element.attachment().is_some() {
        Use::Select
    } else {
        Use::Alone
    }
}

/// Two shared claims do not clash, nor do two chip selects (000, 5.5).
fn clash(earlier: &Claim, later: &Claim) -> bool {
    let peaceful = earlier.usage == later.usage && earlier.usage != Use::Alone;
    earlier.pin == later.pin && !peaceful
}

/// 15: the first claim, in claim order, that clashes with any earlier one.
pub fn check_claims(claims: &[Claim]) -> Result<(), Refusal> {
    for (at, later) in claims.iter().enumerate() {
        if claims[..at].iter().any(|earlier| clash(earlier, later)) {
            return Err(Refusal::at(number::CLASH, later.place));
        }
    }
    Ok(())
}
