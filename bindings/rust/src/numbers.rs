//! A record as 32 bytes of numbers.

/// The byte of a pin that is not used.
pub const UNUSED_PIN: u8 = 0xFF;

/// The byte of a pin: `pin(1, 3)` is P1.3.
///
/// ```
/// assert_eq!(esa::pin(1, 3), 0x13);
/// ```
pub const fn pin(port: u8, pin: u8) -> u8 {
    port << 4 | pin & 0x0F
}

/// A record: each number as wide as its bytes below, lowest byte first. The bytes that a kind does not name are ignored when a
/// record is written, and 0 when one is read.
///
/// ```text
/// description       0 device type, 1 string, 2-5 serial number, 6 SPWR (0 is no; read as 0 or 1), 7 power units (4 mA each),
///                   8, 9, 10 hardware revision pins
/// all but 0Bh, 0Ch  0 string, 1 x, 2 y, 3 z (centimetres; FFh in all three: unknown), 4 zone, and then
///   01h             5 bus type, 6 kind of address (0 bus address, else chip select pin; read as 0 or 1), 7 address,
///                   8-9 LSB register, 10-11 MSB register, 12-13 minimum value, 14 minimum temperature, 15-16 maximum value,
///                   17 maximum temperature
///   02h             5 thermal type, 6 pin, 7-8, 9-10, 11-12, 13-14, 15-16 counts at 0, 25, 50, 75, 100 degrees
///   03h, 06h        5 PWM pin, 6 tachometer pin, 7 PPR, 8-9 minimum RPM, 10-11 maximum RPM, 12 minimum duty cycle
///   04h             5 pin, 6 colour, 7 purpose of the first lamp; 8, 9, 10 of the second; 11, 12, 13 of the third
///   05h             5 pin, 6-7 FULL, 8-9 EMPTY, 10-11 WARNING (counts)
///   07h             5 pin, 6 VMAX, 7 VMIN (decivolts)
///   08h             5 pin, 6-7 IMIN, 8-9 IMAX (deciamps)
///   09h, 0Ah        5 bus type, 6 kind of address, 7 address
///   0Dh             5 bus type, 6 kind of address, 7 address, 8 chip identifier
///   0Eh             5 red pin, 6 green pin, 7 blue pin
/// 0Bh, 0Ch          none when written: their part is the whole record. Read: of 0Bh 0 the zone's number, 1 its string;
///                   of 0Ch 0 the string's number
/// ```
///
/// Byte 31 names the chip of the record's pins: 0 the C8051F320, any other number the C8051F321. [`start`](crate::start) and
/// [`append`](crate::append) refuse a pin of another chip than theirs, even one that both chips have.
///
/// ```
/// use esa::{pin, Numbers};
/// let fan = Numbers::new()
///     .bytes(0, [0, 0xFF, 0xFF, 0xFF, 1]) // no string, position unknown, zone 1
///     .bytes(5, [pin(0, 5), pin(0, 6), 2]) // PWM, tachometer, two pulses a turn
///     .two(8, 300)
///     .two(10, 1500)
///     .byte(12, 0x40);
/// assert_eq!(fan.two_at(10), 1500);
/// ```
#[derive(Clone, Copy, Debug, Default, PartialEq, Eq, Hash)]
pub struct Numbers(pub [u8; Numbers::LENGTH]);

impl Numbers {
    /// How many bytes a record's numbers have.
    pub const LENGTH: usize = 32;

    /// All of them 0.
    pub const fn new() -> Numbers {
        Numbers([0; Numbers::LENGTH])
    }

    /// With this byte there. Panics where there is no such place, as do the others.
    pub fn byte(self, at: usize, value: u8) -> Numbers {
        self.bytes(at, [value])
    }

    /// With these bytes from there on.
    pub fn bytes<const N: usize>(mut self, at: usize, values: [u8; N]) -> Numbers {
        self.0[at..at + N].copy_from_slice(&values);
        self
    }

    /// With this number of two bytes there.
    pub fn two(self, at: usize, value: u16) -> Numbers {
        self.bytes(at, value.to_le_bytes())
    }

    /// With this number of four bytes there.
    pub fn four(self, at: usize, value: u32) -> Numbers {
        self.bytes(at, value.to_le_bytes())
    }

    /// The byte there.
    pub fn byte_at(&self, at: usize) -> u8 {
        self.0[at]
    }

    /// The number of two bytes there.
    pub fn two_at(&self, at: usize) -> u16 {
        u16::from_le_bytes(self.taken(at))
    }

    /// The number of four bytes there.
    pub fn four_at(&self, at: usize) -> u32 {
        u32::from_le_bytes(self.taken(at))
    }

    fn taken<const N: usize>(&self, at: usize) -> [u8; N] {
        std::array::from_fn(|i| self.0[at + i])
    }
}
