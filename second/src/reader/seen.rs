//! What is remembered of the elements gone by: numbers, and claims on pins.
//!
//! Two structs, not one: the numbers are found by index and live in memory, the claims can live
//! in registers only if they stand apart.

use super::sets::{NumberSet, PinSet, FAULT_LED};

/// Zones and strings, declared and named.
#[derive(Clone, Debug, PartialEq, Eq)]
pub struct Numbers {
    pub zones: NumberSet,
    pub zones_named: NumberSet,
    pub strings: NumberSet,
    pub strings_named: NumberSet,
    pub zone_count: usize,
}

/// Bit i stands for identifier i: the twelve kinds with a string index in byte 3, a zone in byte 7.
pub const DEVICES: u64 = 0x67FE;

impl Numbers {
    #[inline(always)]
    pub fn new() -> Numbers {
        Numbers {
            zones: NumberSet::EMPTY,
            zones_named: NumberSet::EMPTY,
            strings: NumberSet::EMPTY,
            strings_named: NumberSet::EMPTY,
            zone_count: 0,
        }
    }

    /// Notes string index and zone of a device at the front of `rest`. Of other kinds nothing is
    /// noted; of a device too short for these bytes, whatever is, since rule 8 will refuse it.
    #[inline(always)]
    pub fn note(&mut self, identifier: u8, rest: &[u8]) {
        if let Some(e) = rest.first_chunk::<8>() {
            let device = DEVICES >> (identifier & 63) & 1;
            self.strings_named.add_if(device, e[3]);
            self.zones_named.add_if(device, e[7]);
        }
    }
}

/// Pins claimed, by the way they are claimed.
#[derive(Clone, Copy, Debug, PartialEq, Eq)]
pub struct Claims {
    pub shared: PinSet,
    pub select: PinSet,
    /// The last pin of the fan list that a fan, a pump or an RGB LED has used; 0 before the first.
    pub last_of_fans: PinSet,
    alone: PinSet,
    /// Pins that two claims wanted alone.
    twice: PinSet,
}

impl Claims {
    /// The fault LED's claim.
    #[inline(always)]
    pub fn new() -> Claims {
        Claims {
            shared: 0,
            select: 0,
            last_of_fans: 0,
            alone: FAULT_LED,
            twice: 0,
        }
    }

    #[inline(always)]
    pub fn alone(&mut self, pins: PinSet) {
        self.twice |= self.alone & pins;
        self.alone |= pins;
    }

    /// Whether any claim clashes does not depend on the order of the claims.
    #[inline(always)]
    pub fn clash(&self) -> bool {
        let shared = self.shared & (self.select | self.alone);
        self.twice | shared | (self.select & self.alone) != 0
    }
}
