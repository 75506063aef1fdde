//! Calls with pins of this chip and of the other, on and around the four: 10, and what comes before and after it;
//! and 23 in the same company.

use super::call::WriterCall;
use super::codes::PINS;
use super::samples::{description, elements, junk, Sample, Sink};
use crate::settings::writing;
use second::element::id;
use second::numbers::CHIP;
use second::settings::BLOCK_MODE;
use second::Chip;

/// What the byte that names the chip may be: 0 the 320, any other value the 321.
const NAMED: [u8; 5] = [0, 1, 2, 128, 255];

pub fn calls(chip: Chip, to: Sink) -> Result<(), String> {
    for sample in elements(chip) {
        for &at in places(sample.id) {
            for pin in PINS {
                let mut changed = sample.clone();
                changed.numbers[at] = pin;
                named(&changed, to)?;
            }
        }
        in_company(&sample, to)?;
        if on_a_bus(sample.id) {
            let mut retired = sample.clone();
            retired.numbers[5..7].copy_from_slice(&[BLOCK_MODE, 0]);
            in_company(&retired, to)?;
        }
    }
    starts(chip, to)
}

fn on_a_bus(id: u8) -> bool {
    id::ON_A_BUS.contains(&id)
}

/// Where the numbers of a kind have its pins.
fn places(id: u8) -> &'static [usize] {
    match id {
        _ if on_a_bus(id) => &[7],
        id::ANALOGUE_SENSOR => &[6],
        id::FAN | id::PUMP => &[5, 6],
        id::STATUS_LED => &[5, 8, 11],
        id::WATER_LEVEL | id::VOLTAGE | id::CURRENT => &[5],
        id::RGB_LED => &[5, 6, 7],
        _ => &[],
    }
}

fn named(sample: &Sample, to: Sink) -> Result<(), String> {
    NAMED.into_iter().try_for_each(|name| {
        let mut named = sample.clone();
        named.numbers[CHIP] = name;
        to(named.with_room())
    })
}

/// Pins of either chip beside a length that is none, a wrong part, large numbers and codes, and no room.
fn in_company(sample: &Sample, to: Sink) -> Result<(), String> {
    for name in NAMED {
        let mut named = sample.clone();
        named.numbers[CHIP] = name;
        let needed = 20 + named.needed();
        for (size, said) in [(needed, 20), (needed - 1, 20), (needed, 15), (15, 16)] {
            to(named.call(junk(size, said)))?;
        }
        let mut longer = named.clone();
        longer.part.push(1);
        to(longer.with_room())?;
        for at in 5..14 {
            for value in [15, 16, 128] {
                let mut bent = named.clone();
                bent.numbers[at] = value;
                to(bent.with_room())?;
            }
        }
    }
    Ok(())
}

/// Each hardware revision pin, beside what start refuses before it.
fn starts(chip: Chip, to: Sink) -> Result<(), String> {
    for name in NAMED {
        for at in 8..11 {
            for pin in PINS {
                let mut numbers = description(chip);
                numbers[at] = pin;
                numbers[CHIP] = name;
                let settings = writing(chip, pin.into());
                to(WriterCall::start(settings, numbers, junk(16, 0)))?;
                to(WriterCall::start(settings, numbers, junk(15, 0)))?;
                for (other, value) in [(0, 4), (5, 1), (7, 128)] {
                    let mut bent = numbers;
                    bent[other] = value;
                    to(WriterCall::start(settings, bent, junk(16, 0)))?;
                }
            }
        }
    }
    Ok(())
}
