//! The second walk, for the place of a refusal 13, 14 or 15.
//!
//! It is made only over tables that the pass has found whole, so lengths are simply followed.

use super::sets::{NumberSet, PinSet, Pins, FAULT_LED, I2C_BUS, REFERENCE, SPI_BUS};
use crate::element::id;
use crate::settings::Chip;

/// The elements of a table found whole: place and bytes.
fn walk(table: &[u8]) -> impl Iterator<Item = (usize, &[u8])> {
    let mut place = 16;
    std::iter::from_fn(move || {
        let rest = table.get(place..)?;
        let &[_, low, high] = rest.first_chunk()?;
        let element = rest.get(..usize::from(u16::from_le_bytes([low, high])))?;
        let here = place;
        place += element.len();
        Some((here, element))
    })
}

/// 13: the first element whose zone has no descriptor.
#[cold]
pub fn zone(table: &[u8], declared: &NumberSet) -> usize {
    walk(table)
        .find(|(_, e)| !matches!(e[0], id::ZONE | id::TEXT) && !declared.has(e[7]))
        .map_or(0, |(place, _)| place)
}

/// 14: the description, or the first element, whose string index has no string.
#[cold]
pub fn string(table: &[u8], declared: &NumberSet) -> usize {
    if !declared.has(table[4]) {
        return 0;
    }
    walk(table)
        .find(|(_, e)| match e[0] {
            id::TEXT => false,
            id::ZONE => !declared.has(e[4]),
            _ => !declared.has(e[3]),
        })
        .map_or(0, |(place, _)| place)
}

/// 15: the place of the first claim, in claim order, that clashes with an earlier one.
#[cold]
pub fn clash(table: &[u8]) -> usize {
    let mut claims = Claims::new();
    if claims.alone([table[9], table[10], table[11]]) {
        return 0;
    }
    walk(table)
        .find(|(_, e)| claims.element(e))
        .map_or(0, |(place, _)| place)
}

/// The pins have been found on the chip, and all are on the larger one.
fn bit(pin: u8) -> PinSet {
    Pins::of(Chip::F320).bit(pin)
}

/// The claims so far. Each call answers whether the new ones clash with an earlier one.
#[derive(Clone, Copy)]
pub struct Claims {
    shared: PinSet,
    select: PinSet,
    alone: PinSet,
}

impl Claims {
    /// The fault LED's.
    pub fn new() -> Claims {
        Claims {
            shared: 0,
            select: 0,
            alone: FAULT_LED,
        }
    }

    /// Those of an element that the pass has found good.
    pub fn element(&mut self, e: &[u8]) -> bool {
        match e[0] {
            id::DIGITAL_SENSOR | id::CONTROLLER | id::TACHOMETER | id::EXTERNAL_RGB => {
                self.device(e[8], e[9])
            }
            id::ANALOGUE_SENSOR => self.shared(REFERENCE) || self.alone([e[9]]),
            id::WATER_LEVEL | id::VOLTAGE | id::CURRENT => {
                self.shared(REFERENCE) || self.alone([e[8]])
            }
            id::FAN | id::PUMP => self.alone([e[8], e[9]]),
            id::RGB_LED => self.alone([e[8], e[9], e[10]]),
            id::STATUS_LED => self.alone([e[8], e[10], e[12]]),
            _ => false,
        }
    }

    fn shared(&mut self, pins: PinSet) -> bool {
        self.shared |= pins;
        pins & (self.select | self.alone) != 0
    }

    fn device(&mut self, bus: u8, address: u8) -> bool {
        if bus & 0x0F != 3 {
            return self.shared(I2C_BUS);
        }
        let select = bit(address);
        self.select |= select;
        self.shared(SPI_BUS) || select & (self.shared | self.alone) != 0
    }

    pub fn alone<const N: usize>(&mut self, pins: [u8; N]) -> bool {
        pins.into_iter().any(|pin| {
            let pin = bit(pin);
            let taken = pin & (self.shared | self.select | self.alone) != 0;
            self.alone |= pin;
            taken
        })
    }
}
