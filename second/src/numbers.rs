//! A record's numbers as the 32 bytes of the C face, both ways. Bytes that a record does not use may
//! be anything.

use crate::element::id;
use crate::pins::Pin;
use crate::record::*;
use crate::settings::Chip;
use crate::units::{Centimetres, Deciamps, Decivolts, DegreesCentigrade, FourMilliamps, Rpm};

pub type Numbers = [u8; 32];

/// Names the chip of all pins of the record: 0 is the 320, any other value the 321.
pub const CHIP: usize = 31;

/// Bytes from the front that a description or an element of this kind uses.
pub const OF_DESCRIPTION: usize = 11;

pub fn used(identifier: u8) -> usize {
    match identifier {
        id::DIGITAL_SENSOR => 18,
        id::ANALOGUE_SENSOR => 17,
        id::STATUS_LED => 14,
        id::FAN | id::PUMP => 13,
        id::WATER_LEVEL => 12,
        id::CURRENT => 10,
        id::EXTERNAL_RGB => 9,
        id::VOLTAGE | id::CONTROLLER | id::TACHOMETER | id::RGB_LED => 8,
        _ => 0,
    }
}

fn word(numbers: &Numbers, at: usize) -> u16 {
    u16::from_le_bytes([numbers[at], numbers[at + 1]])
}

fn pin(numbers: &Numbers, at: usize) -> Pin {
    let chip = match numbers[CHIP] {
        0 => Chip::F320,
        _ => Chip::F321,
    };
    Pin::on(chip, numbers[at])
}

pub fn description(numbers: &Numbers) -> Description {
    let [_, _, a, b, c, d, ..] = *numbers;
    Description {
        device_type: numbers[0],
        string: numbers[1],
        serial: u32::from_le_bytes([a, b, c, d]),
        self_powered: numbers[6] != 0,
        power: FourMilliamps(numbers[7]),
        hardware: [8, 9, 10].map(|at| pin(numbers, at)),
    }
}

/// `None` when the identifier is of no kind.
pub fn element(identifier: u8, n: &Numbers) -> Option<Element> {
    let common = common(n);
    let attachment = attachment(n);
    Some(match identifier {
        id::DIGITAL_SENSOR => Element::DigitalSensor(DigitalSensor {
            common,
            attachment,
            lsb_register: word(n, 8),
            msb_register: word(n, 10),
            minimum_value: word(n, 12),
            minimum_temp: DegreesCentigrade(n[14]),
            maximum_value: word(n, 15),
            maximum_temp: DegreesCentigrade(n[17]),
        }),
        id::ANALOGUE_SENSOR => Element::AnalogueSensor(AnalogueSensor {
            common,
            thermal_type: n[5],
            pin: pin(n, 6),
            calibration: [7, 9, 11, 13, 15].map(|at| word(n, at)),
        }),
        id::FAN => Element::Fan(fan(n)),
        id::PUMP => Element::Pump(fan(n)),
        id::STATUS_LED => Element::StatusLed(StatusLed {
            common,
            lights: [5, 8, 11].map(|at| Light {
                pin: pin(n, at),
                colour: n[at + 1],
                purpose: n[at + 2],
            }),
        }),
        id::WATER_LEVEL => Element::WaterLevel(WaterLevel {
            common,
            pin: pin(n, 5),
            full: word(n, 6),
            empty: word(n, 8),
            warning: word(n, 10),
        }),
        id::VOLTAGE => Element::Voltage(Voltage {
            common,
            pin: pin(n, 5),
            at_maximum: Decivolts(n[6]),
            at_minimum: Decivolts(n[7]),
        }),
        id::CURRENT => Element::Current(Current {
            common,
            pin: pin(n, 5),
            at_minimum: Deciamps(word(n, 6)),
            at_maximum: Deciamps(word(n, 8)),
        }),
        id::CONTROLLER => Element::Controller(Controller { common, attachment }),
        id::TACHOMETER => Element::Tachometer(Tachometer { common, attachment }),
        id::EXTERNAL_RGB => Element::ExternalRgb(ExternalRgb {
            common,
            attachment,
            chip_identifier: n[8],
        }),
        id::RGB_LED => Element::RgbLed(RgbLed {
            common,
            red: pin(n, 5),
            green: pin(n, 6),
            blue: pin(n, 7),
        }),
        id::ZONE => Element::Zone(Zone),
        id::TEXT => Element::Text(Text),
        _ => return None,
    })
}

fn common(n: &Numbers) -> Common {
    Common {
        string: n[0],
        position: Position {
            x: Centimetres(n[1]),
            y: Centimetres(n[2]),
            z: Centimetres(n[3]),
        },
        zone: n[4],
    }
}

fn fan(n: &Numbers) -> Fan {
    Fan {
        common: common(n),
        pwm: pin(n, 5),
        tachometer: pin(n, 6),
        pulses_per_revolution: n[7],
        minimum_rpm: Rpm(word(n, 8)),
        maximum_rpm: Rpm(word(n, 10)),
        minimum_duty: n[12],
    }
}

fn attachment(n: &Numbers) -> Attachment {
    let address = match n[6] {
        0 => Address::Bus(n[7]),
        _ => Address::Select(pin(n, 7)),
    };
    Attachment {
        bus_type: n[5],
        address,
    }
}

/// Puts the description's numbers over what stands in `n`, its pins being of this chip; the bytes of SPWR
/// and of the chip stay where they say the same.
pub fn put_description(record: &Description, chip: Chip, n: &mut Numbers) {
    n[0] = record.device_type;
    n[1] = record.string;
    n[2..6].copy_from_slice(&record.serial.to_le_bytes());
    put_truth(record.self_powered, &mut n[6]);
    n[7] = record.power.0;
    n[8..11].copy_from_slice(&record.hardware.map(Pin::byte));
    put_truth(chip == Chip::F321, &mut n[CHIP]);
}

/// Any value but 0 is true, and one that stands there already is kept.
fn put_truth(truth: bool, at: &mut u8) {
    *at = if truth { (*at).max(1) } else { 0 };
}

/// Puts the element's numbers over what stands in `n`, its pins being of this chip. A string and a zone have
/// none that append takes: their part is the whole record.
pub fn put_element(record: &Element, chip: Chip, n: &mut Numbers) {
    if let Some(common) = record.common() {
        let Position { x, y, z } = common.position;
        n[..5].copy_from_slice(&[common.string, x.0, y.0, z.0, common.zone]);
        put_truth(chip == Chip::F321, &mut n[CHIP]);
    }
    if let Some(attachment) = record.attachment() {
        let (select, address) = match attachment.address {
            Address::Bus(address) => (false, address),
            Address::Select(pin) => (true, pin.byte()),
        };
        n[5] = attachment.bus_type;
        put_truth(select, &mut n[6]);
        n[7] = address;
    }
    match record {
        Element::DigitalSensor(e) => {
            put_words(8, &[e.lsb_register, e.msb_register, e.minimum_value], n);
            n[14] = e.minimum_temp.0;
            put_words(15, &[e.maximum_value], n);
            n[17] = e.maximum_temp.0;
        }
        Element::AnalogueSensor(e) => {
            n[5..7].copy_from_slice(&[e.thermal_type, e.pin.byte()]);
            put_words(7, &e.calibration, n);
        }
        Element::Fan(e) | Element::Pump(e) => {
            n[5..7].copy_from_slice(&[e.pwm.byte(), e.tachometer.byte()]);
            n[7] = e.pulses_per_revolution;
            put_words(8, &[e.minimum_rpm.0, e.maximum_rpm.0], n);
            n[12] = e.minimum_duty;
        }
        Element::StatusLed(e) => {
            for (at, light) in [5, 8, 11].into_iter().zip(&e.lights) {
                n[at..at + 3].copy_from_slice(&[light.pin.byte(), light.colour, light.purpose]);
            }
        }
        Element::WaterLevel(e) => {
            n[5] = e.pin.byte();
            put_words(6, &[e.full, e.empty, e.warning], n);
        }
        Element::Voltage(e) => {
            n[5..8].copy_from_slice(&[e.pin.byte(), e.at_maximum.0, e.at_minimum.0]);
        }
        Element::Current(e) => {
            n[5] = e.pin.byte();
            put_words(6, &[e.at_minimum.0, e.at_maximum.0], n);
        }
        Element::ExternalRgb(e) => n[8] = e.chip_identifier,
        Element::RgbLed(e) => n[5..8].copy_from_slice(&[e.red, e.green, e.blue].map(Pin::byte)),
        Element::Controller(_) | Element::Tachometer(_) | Element::Zone(_) | Element::Text(_) => (),
    }
}

/// Numbers of two bytes, end to end from this byte on.
fn put_words(at: usize, words: &[u16], n: &mut Numbers) {
    for (step, word) in words.iter().enumerate() {
        let at = at + 2 * step;
        n[at..at + 2].copy_from_slice(&word.to_le_bytes());
    }
}

#[cfg(test)]
mod tests {
    use super::*;
    use crate::generator::{writer_call, What};
    use crate::random::Random;

    #[test]
    fn numbers_give_their_record_back() {
        let mut random = Random::new(5);
        for _ in 0..20_000 {
            let mut numbers: Numbers = std::array::from_fn(|_| random.byte());
            let call = writer_call(&mut random);
            match call.what {
                What::Start(record) => {
                    put_description(&record, call.pins, &mut numbers);
                    assert_eq!(description(&numbers), record);
                }
                What::Append(record, _) => {
                    put_element(&record, call.pins, &mut numbers);
                    assert_eq!(element(record.identifier(), &numbers), Some(record));
                }
            }
        }
    }
}
