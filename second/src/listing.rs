//! The listing: document 01's section of that name, put into a lent buffer in one pass over the bytes.
//!
//! Fields are parted by tabs, every line ends in one line feed, and a refused table prints only
//! its `R` line. An element in block mode, which the archive alone lists, has a last field `retired`.

use crate::access::walk;
use crate::answer::Verdict;
use crate::element::id;
use crate::reader::check;
use crate::settings::{Settings, BLOCK_MODE};

/// Room for every listing: the line of a description has at most 47 bytes, one of an element 29.
pub const LISTING: usize = 4096;

const UNUSED: u8 = 0xFF;

/// The text for a table, accepted or refused.
pub fn listing(table: &[u8], settings: Settings) -> Vec<u8> {
    let mut out = [0; LISTING];
    let length = list(table, settings, &mut out);
    out[..length].to_vec()
}

/// Puts the text at the front of `out` and gives its length; the bytes behind it stay.
///
/// An entry point for benchmarks, and never inlined for that reason.
#[inline(never)]
pub fn list(table: &[u8], settings: Settings, out: &mut [u8; LISTING]) -> usize {
    let mut text = Text { out, length: 0 };
    if let Verdict::Refused { number, place } = check(table, settings) {
        text.put(b"R\t");
        text.number(usize::from(number));
        text.put(b"\t");
        text.number(place);
        text.put(b"\n");
        return text.length;
    }
    text.description(table);
    for (place, element) in walk(table) {
        text.element(place, element);
    }
    text.length
}

/// The text so far. No byte behind it is touched.
struct Text<'o> {
    out: &'o mut [u8; LISTING],
    length: usize,
}

impl Text<'_> {
    #[inline(always)]
    fn put<const N: usize>(&mut self, bytes: &[u8; N]) {
        self.out[self.length..self.length + N].copy_from_slice(bytes);
        self.length += N;
    }

    /// In decimals.
    fn number(&mut self, number: usize) {
        if number >= 10 {
            self.number(number / 10);
        }
        self.put(&[digit(number % 10)]);
    }

    /// A place in a table or a number of one byte, in decimals: at most four, and without a loop.
    #[inline(always)]
    fn small(&mut self, number: usize) {
        let [a, b, c, d] = [
            number / 1000,
            number / 100 % 10,
            number / 10 % 10,
            number % 10,
        ];
        let [a, b, c, d] = [a, b, c, d].map(digit);
        match number {
            0..=9 => self.put(&[d]),
            10..=99 => self.put(&[c, d]),
            100..=999 => self.put(&[b, c, d]),
            _ => self.put(&[a, b, c, d]),
        }
    }

    /// A number of one byte and a tab. Of the four bytes put, those behind the tab are overwritten: at least
    /// two bytes follow in the line.
    #[inline(always)]
    fn byte(&mut self, number: u8) {
        let (text, length) = DECIMALS[usize::from(number)];
        self.put(&text);
        self.length -= 4 - usize::from(length);
    }

    /// `T`, revision, length, type, string, serial, power, three hardware pins.
    fn description(&mut self, table: &[u8]) {
        self.put(b"T\t0.90\t");
        self.small(table.len());
        self.put(&[b'\t', b'0' + table[3], b'\t']);
        self.small(usize::from(table[4]));
        self.put(b"\t");
        self.number(u32::from_le_bytes([table[5], table[6], table[7], 0]) as usize);
        self.put(b"\t");
        match table[8] {
            0x80.. => self.put(b"self"),
            units => self.small(4 * usize::from(units)),
        }
        for &pin in &table[9..12] {
            self.put(b"\t");
            match pin {
                UNUSED => self.put(b"-"),
                _ => self.put(&name(pin)),
            }
        }
        self.put(b"\n");
    }

    /// `E`, offset, identifier, zone, own used pins, `retired`.
    #[inline(always)]
    fn element(&mut self, place: usize, e: &[u8]) {
        self.put(b"E\t");
        self.small(place);
        self.put(&[b'\t', b'0', hex(e[0]), b'\t']);
        match e[0] {
            id::TEXT => return self.put(b"-\t-\n"),
            id::ZONE => self.byte(e[3]),
            _ => self.byte(e[7]),
        }
        let pins = self.length;
        for pin in own_pins(e) {
            if pin != UNUSED {
                let [p, port, dot, number] = name(pin);
                self.put(&[p, port, dot, number, b',']);
            }
        }
        if self.length == pins {
            return match retired(e) {
                true => self.put(b"-\tretired\n"),
                false => self.put(b"-\n"),
            };
        }
        // The last comma ends the line instead.
        self.length -= 1;
        self.put(b"\n");
    }
}

/// The decimals of each number of one byte with a tab behind them, and how many bytes these are.
static DECIMALS: [([u8; 4], u8); 256] = decimals();

const fn decimals() -> [([u8; 4], u8); 256] {
    let mut list = [([b'\t'; 4], 0); 256];
    let mut number = 0;
    while number < 256 {
        let [a, b, c] = [
            digit(number / 100),
            digit(number / 10 % 10),
            digit(number % 10),
        ];
        list[number] = match number {
            0..=9 => ([c, b'\t', 0, 0], 2),
            10..=99 => ([b, c, b'\t', 0], 3),
            _ => ([a, b, c, b'\t'], 4),
        };
        number += 1;
    }
    list
}

#[inline(always)]
const fn digit(number: usize) -> u8 {
    b'0' + number as u8
}

/// The last digit of an identifier; the first is always 0.
#[inline(always)]
fn hex(identifier: u8) -> u8 {
    b"0123456789ABCDEF"[usize::from(identifier & 0x0F)]
}

/// As `P0.5`.
#[inline(always)]
fn name(pin: u8) -> [u8; 4] {
    [b'P', b'0' + (pin >> 4), b'.', b'0' + (pin & 0x0F)]
}

/// Is it a bus device in block mode? Such a one has no pins of its own.
#[inline(always)]
fn retired(e: &[u8]) -> bool {
    id::ON_A_BUS.contains(&e[0]) && e[8] & 0x0F == BLOCK_MODE
}

/// In field order; those that are not there as unused.
#[inline(always)]
fn own_pins(e: &[u8]) -> [u8; 3] {
    match e[0] {
        id::DIGITAL_SENSOR | id::CONTROLLER | id::TACHOMETER | id::EXTERNAL_RGB
            if e[8] & 0x0F == 3 =>
        {
            [e[9], UNUSED, UNUSED]
        }
        id::ANALOGUE_SENSOR => [e[9], UNUSED, UNUSED],
        id::WATER_LEVEL | id::VOLTAGE | id::CURRENT => [e[8], UNUSED, UNUSED],
        id::FAN | id::PUMP => [e[8], e[9], UNUSED],
        id::STATUS_LED => [e[8], e[10], e[12]],
        id::RGB_LED => [e[8], e[9], e[10]],
        _ => [UNUSED; 3],
    }
}
