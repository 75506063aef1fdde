//! Calls at the edges of numbers, codes and pins: 25, 4, 5, 9 and 10.

use super::call::WriterCall;
use super::samples::{description, elements, junk, Sample, Sink};
use crate::settings::writing;
use second::element::id;
use second::numbers::{used, Numbers, OF_DESCRIPTION};
use second::Chip;

/// Pins that exist, their neighbours, and bytes that look like "unused".
pub const PINS: [u8; 36] = [
    0x00, 0x01, 0x02, 0x03, 0x04, 0x05, 0x06, 0x07, 0x08, 0x0F, 0x10, 0x11, 0x12, 0x13, 0x14, 0x15,
    0x16, 0x17, 0x18, 0x1F, 0x20, 0x21, 0x22, 0x23, 0x24, 0x25, 0x26, 0x27, 0x28, 0x30, 0x31, 0x40,
    0xEE, 0xF0, 0xFE, 0xFF,
];
/// Around the ends of fields of 4 and 7 bits, and of the codes.
const CODES: [u8; 12] = [0, 1, 2, 3, 4, 5, 6, 15, 16, 127, 128, 255];

pub fn calls(chip: Chip, to: Sink) -> Result<(), String> {
    one_number(chip, to)?;
    descriptions(chip, to)?;
    attachments(chip, to)?;
    fans_and_colours(chip, to)?;
    water(chip, to)?;
    lamps(chip, to)
}

/// 25, 9 and 10: each byte of the numbers, unused ones too, with each of its values.
fn one_number(chip: Chip, to: Sink) -> Result<(), String> {
    for sample in elements(chip) {
        for at in 0..32 {
            let step = if at < used(sample.id) { 1 } else { 51 };
            for value in (0..=255).step_by(step) {
                let mut changed = sample.clone();
                changed.numbers[at] = value;
                to(changed.with_room())?;
            }
        }
    }
    Ok(())
}

fn started(chip: Chip, change: impl Fn(&mut Numbers), to: Sink) -> Result<(), String> {
    let mut numbers = description(chip);
    change(&mut numbers);
    let settings = writing(chip, numbers[8].into());
    to(WriterCall::start(settings, numbers, junk(21, 0xFFFF)))
}

fn descriptions(chip: Chip, to: Sink) -> Result<(), String> {
    for at in 0..32 {
        let step = if at < OF_DESCRIPTION { 1 } else { 51 };
        for value in (0..=255).step_by(step) {
            started(chip, |n| n[at] = value, to)?;
        }
    }
    for self_powered in [0, 1, 2, 128, 255] {
        for power in 0..=255 {
            started(
                chip,
                |n| n[6..8].copy_from_slice(&[self_powered, power]),
                to,
            )?;
        }
    }
    for serial in [
        0,
        1,
        0xFF_FFFF,
        0x100_0000,
        0x100_0001,
        0x7FFF_FFFF,
        0x8000_0000,
        u32::MAX,
    ] {
        for device in [0, 1, 3, 4, 255] {
            for power in [125, 126, 127, 128] {
                started(
                    chip,
                    |n| {
                        n[0] = device;
                        n[2..6].copy_from_slice(&serial.to_le_bytes());
                        n[6..9].copy_from_slice(&[0, power, 0x31]);
                    },
                    to,
                )?;
            }
        }
    }
    Ok(())
}

/// Bus type, kind of address and address together.
fn attachments(chip: Chip, to: Sink) -> Result<(), String> {
    for sample in elements(chip)
        .iter()
        .filter(|sample| id::ON_A_BUS.contains(&sample.id))
    {
        for bus in CODES {
            for kind in [0, 1, 2, 255] {
                for address in CODES.into_iter().chain(PINS) {
                    changed(sample, 5, &[bus, kind, address], to)?;
                }
            }
        }
    }
    Ok(())
}

fn changed(sample: &Sample, at: usize, values: &[u8], to: Sink) -> Result<(), String> {
    let mut sample = sample.clone();
    sample.numbers[at..at + values.len()].copy_from_slice(values);
    to(sample.with_room())
}

/// Order of the fan list, and pulses beside a tachometer or none.
fn fans_and_colours(chip: Chip, to: Sink) -> Result<(), String> {
    const NEAR: [u8; 9] = [0x04, 0x05, 0x06, 0x07, 0x10, 0x11, 0x12, 0x13, 0xFF];
    let of = |id: u8| {
        elements(chip)
            .into_iter()
            .find(|sample| sample.id == id)
            .expect("all kinds")
    };
    let (fan, pump, colours) = (of(id::FAN), of(id::PUMP), of(id::RGB_LED));
    for first in PINS {
        for second in PINS {
            for pulses in [0, 1, 255] {
                changed(&fan, 5, &[first, second, pulses], to)?;
            }
        }
        for second in NEAR {
            for pulses in [0, 1] {
                changed(&pump, 5, &[first, second, pulses], to)?;
            }
        }
    }
    for red in NEAR {
        for green in NEAR {
            for blue in NEAR {
                changed(&colours, 5, &[red, green, blue], to)?;
            }
        }
    }
    Ok(())
}

/// Levels around 1023 beside pins good and bad; chip identifiers beside bus types good, retired and bad.
fn water(chip: Chip, to: Sink) -> Result<(), String> {
    for sample in elements(chip) {
        match sample.id {
            id::WATER_LEVEL => levels(&sample, to)?,
            id::EXTERNAL_RGB => identifiers(&sample, to)?,
            _ => (),
        }
    }
    Ok(())
}

fn levels(sample: &Sample, to: Sink) -> Result<(), String> {
    for pin in [0x14, 0x24, 0x13, 0xFF] {
        for at in [6, 8, 10] {
            for level in [0u16, 255, 256, 1_022, 1_023, 1_024, 1_025, 0x8000, 0xFFFF] {
                let mut bent = sample.clone();
                bent.numbers[5] = pin;
                changed(&bent, at, &level.to_le_bytes(), to)?;
            }
        }
    }
    Ok(())
}

fn identifiers(sample: &Sample, to: Sink) -> Result<(), String> {
    for bus in [0, 2, 3, 4, 16] {
        for kind in [0, 1] {
            for address in [0x14, 0x10, 0x80] {
                for chip in CODES {
                    changed(sample, 5, &[bus, kind, address, chip], to)?;
                }
            }
        }
    }
    Ok(())
}

/// Colour and purpose beside pins used and unused, in each of the three places.
fn lamps(chip: Chip, to: Sink) -> Result<(), String> {
    for sample in elements(chip)
        .iter()
        .filter(|sample| sample.id == id::STATUS_LED)
    {
        for at in [5, 8, 11] {
            for pin in [0x14, 0x30, 0x05, 0x10, 0xEE, 0xFF] {
                for colour in CODES {
                    for purpose in CODES {
                        changed(sample, at, &[pin, colour, purpose], to)?;
                    }
                }
            }
        }
    }
    Ok(())
}
