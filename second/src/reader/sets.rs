//! Sets of bits: which of 256 numbers, and which of 25 pins; and what the settings come to.

use crate::settings::{Chip, Rules, Settings, BLOCK_MODE};

/// A set of numbers 0 to 255.
#[derive(Clone, Copy, Debug, PartialEq, Eq)]
pub struct NumberSet([u64; 4]);

impl NumberSet {
    pub const EMPTY: NumberSet = NumberSet([0; 4]);

    #[inline(always)]
    pub fn add(&mut self, number: u8) {
        self.0[usize::from(number >> 6)] |= 1 << (number & 63);
    }

    /// Adds the number when `wanted` is 1, and nothing when it is 0.
    #[inline(always)]
    pub fn add_if(&mut self, wanted: u64, number: u8) {
        self.0[usize::from(number >> 6)] |= wanted << (number & 63);
    }

    /// Adds the number; true when it stood there before.
    #[inline(always)]
    pub fn add_again(&mut self, number: u8) -> bool {
        let word = &mut self.0[usize::from(number >> 6)];
        let bit = 1 << (number & 63);
        let before = *word & bit != 0;
        *word |= bit;
        before
    }

    #[inline(always)]
    pub fn has(&self, number: u8) -> bool {
        self.0[usize::from(number >> 6)] >> (number & 63) & 1 != 0
    }

    /// Is there a number here that `other` lacks?
    #[inline(always)]
    pub fn exceeds(&self, other: &NumberSet) -> bool {
        let [a, b, c, d] = self.0;
        let [w, x, y, z] = other.0;
        (a & !w) | (b & !x) | (c & !y) | (d & !z) != 0
    }
}

/// A set of pins: bit 8 x port + pin.
pub type PinSet = u32;

/// P2.4 to P2.7, which the 321 lacks.
const ONLY_320: PinSet = 0x00F0_0000;

/// The bits of the pins that a chip has.
#[derive(Clone, Copy)]
pub struct Pins(&'static [PinSet; 256]);

impl Pins {
    #[inline(always)]
    pub fn of(chip: Chip) -> Pins {
        Pins(&BITS[chip as usize])
    }

    /// The bit of a pin byte, or 0 where no such pin exists (FFh among them).
    #[inline(always)]
    pub fn bit(self, pin: u8) -> PinSet {
        self.0[usize::from(pin)]
    }
}

/// What the settings come to.
#[derive(Clone, Copy)]
pub struct Chosen {
    pub pins: Pins,
    /// The bus type that is no longer in use, or one that no byte gives.
    pub retired: u8,
}

impl Chosen {
    #[inline(always)]
    pub fn of(settings: Settings) -> Chosen {
        Chosen {
            pins: Pins::of(settings.chip),
            retired: match settings.rules {
                Rules::Ordinary => BLOCK_MODE,
                Rules::Archive => 0xFF,
            },
        }
    }
}

/// By chip, and by pin byte.
static BITS: [[PinSet; 256]; 2] = [bits(0), bits(ONLY_320)];

/// P1.4 to P1.7, P2.0 to P2.7, P3.0.
pub const ANALOGUE: PinSet = 0x01FF_F000;
/// P0.5 P0.6 P1.1 P1.2 P1.3; the order of the bits is the order of the list.
pub const FAN_LIST: PinSet = 0x0000_0E60;
pub const CHIP_SELECT: PinSet = ANALOGUE | FAN_LIST;
/// P1.4 to P3.0, P0.0 to P0.4.
pub const STATUS_LED: PinSet = ANALOGUE | 0x0000_001F;
/// P0.3 and P0.4.
pub const I2C_BUS: PinSet = 0x0000_0018;
/// P0.0 to P0.2.
pub const SPI_BUS: PinSet = 0x0000_0007;
/// P0.7.
pub const REFERENCE: PinSet = 0x0000_0080;
/// P1.0.
pub const FAULT_LED: PinSet = 0x0000_0100;

/// A bit that no pin has, for a claim that is none.
pub const NO_PIN: PinSet = 1 << 31;

const fn bits(lacking: PinSet) -> [PinSet; 256] {
    let mut bits = [0; 256];
    let mut pin = 0;
    while pin < 25 {
        bits[(pin / 8) * 16 + pin % 8] = (1 << pin) & !lacking;
        pin += 1;
    }
    bits
}

#[cfg(test)]
mod tests {
    use super::*;
    use crate::pins;

    /// Every set of bits holds exactly the pins of the list in `pins` that the chip has.
    #[test]
    fn sets_are_the_lists() {
        for chip in Chip::BOTH {
            let same = |set: PinSet, list: &[u8]| {
                for byte in 0..=255 {
                    let held = Pins::of(chip).bit(byte) & set != 0;
                    let listed = list.contains(&byte) && chip.has(byte);
                    assert_eq!(held, listed, "{chip:?} {byte:02X}h");
                }
            };
            same(PinSet::MAX, &pins::ALL);
            same(ANALOGUE, &pins::ANALOGUE);
            same(FAN_LIST, &pins::FAN_LIST);
            same(CHIP_SELECT, &pins::CHIP_SELECT);
            same(STATUS_LED, &pins::STATUS_LED);
            same(I2C_BUS, &pins::I2C_BUS);
            same(SPI_BUS, &pins::SPI_BUS);
            same(REFERENCE, &pins::REFERENCE);
            same(FAULT_LED, &[pins::FAULT_LED]);
        }
    }

    #[test]
    fn numbers_go_in_and_are_found() {
        let mut set = NumberSet::EMPTY;
        for number in (0..=255u8).step_by(3) {
            assert!(!set.has(number));
            assert!(!set.add_again(number));
            assert!(set.add_again(number));
        }
        assert!((0..=255u8).all(|number| set.has(number) == (number % 3 == 0)));
        let mut other = set;
        assert!(!other.exceeds(&set));
        other.add(200);
        assert!(other.exceeds(&set) && !set.exceeds(&other));
    }
}
