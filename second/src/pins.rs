//! Pins, and those that each use permits, as lists (document 01, 'Pins and who may claim them').
//!
//! A pin byte has the port in bits 7-4 and the pin in bits 3-0. The lists are of pin bytes, and hold what the
//! 320 has; what the 321 lacks is asked apart. The fast reader has its own form of them, as sets of bits;
//! tests hold the two together.

use crate::settings::Chip;

/// A pin place of a record: unused, or a pin byte on a chip. FFh is the one value for "unused", and carries
/// no chip.
#[derive(Clone, Copy, Debug, PartialEq, Eq)]
pub struct Pin {
    chip: Option<Chip>,
    byte: u8,
}

impl Pin {
    pub const UNUSED: Pin = Pin {
        chip: None,
        byte: 0xFF,
    };

    /// What a pin byte says of this chip.
    pub const fn on(chip: Chip, byte: u8) -> Pin {
        match byte {
            0xFF => Pin::UNUSED,
            _ => Pin {
                chip: Some(chip),
                byte,
            },
        }
    }

    pub fn byte(self) -> u8 {
        self.byte
    }

    pub fn chip(self) -> Option<Chip> {
        self.chip
    }

    pub fn is_used(self) -> bool {
        self != Pin::UNUSED
    }

    /// Is it a pin that this chip has, and one of the list? A pin of the other chip never is.
    pub fn is_of(self, chip: Chip, list: &[u8]) -> bool {
        self.chip == Some(chip) && list.contains(&self.byte) && !chip.lacks(self.byte)
    }
}

impl Chip {
    /// Does the chip have the pin of this byte?
    pub fn has(self, byte: u8) -> bool {
        ALL.contains(&byte) && !self.lacks(byte)
    }

    /// Is it one of the four that only the other chip has?
    fn lacks(self, byte: u8) -> bool {
        self == Chip::F321 && ONLY_320.contains(&byte)
    }
}

/// The name of 000, 3.4.5, as `P0.5`.
pub fn name(byte: u8) -> String {
    format!("P{}.{}", byte >> 4, byte & 0x0F)
}

/// P0.0 to P2.7 and P3.0: the 25 pins there are.
pub const ALL: [u8; 25] = [
    0x00, 0x01, 0x02, 0x03, 0x04, 0x05, 0x06, 0x07, // port 0
    0x10, 0x11, 0x12, 0x13, 0x14, 0x15, 0x16, 0x17, // port 1
    0x20, 0x21, 0x22, 0x23, 0x24, 0x25, 0x26, 0x27, // port 2
    0x30, // port 3
];

/// P2.4 to P2.7, which the 321 lacks (000, Annex A, note 3).
pub const ONLY_320: [u8; 4] = [0x24, 0x25, 0x26, 0x27];

/// PWM, tachometer, red, green, blue: P0.5 P0.6 P1.1 P1.2 P1.3, in this order.
pub const FAN_LIST: [u8; 5] = [0x05, 0x06, 0x11, 0x12, 0x13];

/// Analogue sensor: P1.4 to P3.0, thirteen pins.
pub const ANALOGUE: [u8; 13] = [
    0x14, 0x15, 0x16, 0x17, 0x20, 0x21, 0x22, 0x23, 0x24, 0x25, 0x26, 0x27, 0x30,
];

/// Chip select: P1.4 to P3.0 and the fan list.
pub const CHIP_SELECT: [u8; 18] = [
    0x14, 0x15, 0x16, 0x17, 0x20, 0x21, 0x22, 0x23, 0x24, 0x25, 0x26, 0x27,
    0x30, // P1.4 to P3.0
    0x05, 0x06, 0x11, 0x12, 0x13, // the fan list
];

/// Status LED: P1.4 to P3.0, P0.0 to P0.4.
pub const STATUS_LED: [u8; 18] = [
    0x14, 0x15, 0x16, 0x17, 0x20, 0x21, 0x22, 0x23, 0x24, 0x25, 0x26, 0x27,
    0x30, // P1.4 to P3.0
    0x00, 0x01, 0x02, 0x03, 0x04, // P0.0 to P0.4
];

/// Shared by every device of bus types 0 to 2 (000, 5.4.2).
pub const I2C_BUS: [u8; 2] = [0x03, 0x04];
/// Shared by every SPI device (000, 5.4.3).
pub const SPI_BUS: [u8; 3] = [0x00, 0x01, 0x02];
/// The voltage reference shared by 02h, 05h, 07h and 08h (000, 5.4.4).
pub const REFERENCE: [u8; 1] = [0x07];
/// The fault LED stands on P1.0 (000, 5.4.1).
pub const FAULT_LED: u8 = 0x10;

#[cfg(test)]
mod tests {
    use super::*;

    /// How many pins of a list each chip has.
    fn counts(list: &[u8]) -> [usize; 2] {
        Chip::BOTH.map(|chip| list.iter().filter(|&&byte| chip.has(byte)).count())
    }

    #[test]
    fn the_smaller_chip_lacks_four() {
        assert_eq!(counts(&ALL), [25, 21]);
        assert_eq!(counts(&ANALOGUE), [13, 9]);
        assert_eq!(counts(&CHIP_SELECT), [18, 14]);
        assert_eq!(counts(&STATUS_LED), [18, 14]);
        assert_eq!(counts(&FAN_LIST), [5, 5]);
        let shared = [&I2C_BUS[..], &SPI_BUS, &REFERENCE, &[FAULT_LED]].concat();
        assert_eq!(counts(&shared), [7, 7]);
        let lacking: Vec<u8> = (0..=255)
            .filter(|&byte| Chip::F320.has(byte) != Chip::F321.has(byte))
            .collect();
        assert_eq!(lacking, [0x24, 0x25, 0x26, 0x27]);
    }

    #[test]
    fn unused_carries_no_chip() {
        for chip in Chip::BOTH {
            assert_eq!(Pin::on(chip, 0xFF), Pin::UNUSED);
            assert_eq!(Pin::on(chip, 0x14).chip(), Some(chip));
            assert_ne!(Pin::on(chip, 0x14), Pin::on(chip.other(), 0x14));
        }
        assert_eq!(Pin::UNUSED.chip(), None);
    }
}
