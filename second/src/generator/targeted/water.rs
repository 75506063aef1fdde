//! The kinds of the water kits, 05h, 06h, 07h and 0Dh: levels, pulses, volts, chip identifiers and the sums of
//! three blocks. Their lengths, pins, claims, zones and strings are among the other kinds'.

use super::{add_element, Case};
use crate::generator::raw;

pub fn cases(cases: &mut Vec<Case>) {
    levels(cases);
    pulses(cases);
    volts(cases);
    chip_identifiers(cases);
    three_blocks(cases);
    odd_blocks(cases);
}

/// FULL, EMPTY and WARNING around 1023, alone and beside a wrong pin.
fn levels(cases: &mut Vec<Case>) {
    for at in [9, 11, 13] {
        for value in [0u16, 255, 256, 1022, 1023, 1024, 1025, 2047, 0x8000, 0xFFFF] {
            for pin in [0x14, 0x13] {
                let mut element = raw::water(1, pin);
                element[at..at + 2].copy_from_slice(&value.to_le_bytes());
                let name = format!("level {value} at {at}, pin {pin:02X}h");
                add_element(cases, &name, element);
            }
        }
    }
    let mut element = raw::water(1, 0x14);
    element[9..15].copy_from_slice(&[0, 0, 0xFF, 3, 0xFF, 3]);
    add_element(cases, "empty over full", element);
}

fn pulses(cases: &mut Vec<Case>) {
    for pulses in [0, 1, 255] {
        for tachometer in [0x06, 0x05, 0x0F, 0xF0, 0xFE, 0xFF] {
            let mut element = raw::pump(1, 0x05, tachometer);
            element[10] = pulses;
            let name = format!("pump's PPR {pulses} beside tachometer {tachometer:02X}h");
            add_element(cases, &name, element);
        }
    }
    let mut element = raw::pump(1, 0x07, 0xFF);
    element[10] = 1;
    add_element(cases, "pump's PPR without tachometer and bad PWM", element);
}

/// Any two bytes are good, in any order.
fn volts(cases: &mut Vec<Case>) {
    for volts in [[140, 0], [0, 140], [0, 0], [255, 255], [1, 0x14]] {
        let mut element = raw::voltage(1, 0x14);
        element[9..11].copy_from_slice(&volts);
        add_element(cases, &format!("volts {volts:?}"), element);
    }
}

/// Every chip identifier; some beside a reserved bus type and beside a wrong chip select.
fn chip_identifiers(cases: &mut Vec<Case>) {
    for chip in 0..=255u8 {
        let mut element = raw::external(1, 0, 0x40, [0, 1, 0]);
        element[11] = chip;
        add_element(cases, &format!("chip identifier {chip:02X}h"), element);
    }
    for chip in [0, 1, 4] {
        for (bus, address) in [(4, 0x40), (3, 0x10), (3, 0xFF), (3, 0x24)] {
            let mut element = raw::external(1, bus, address, [0; 3]);
            element[11] = chip;
            let name = format!("chip identifier {chip}, bus {bus}, address {address:02X}h");
            add_element(cases, &name, element);
        }
    }
}

/// Sums that pass 255, each some bytes off.
fn three_blocks(cases: &mut Vec<Case>) {
    for entries in [
        [0, 0, 0],
        [1, 0, 0],
        [0, 1, 0],
        [0, 0, 1],
        [2, 1, 3],
        [63, 64, 128],
        [200, 100, 50],
        [255, 255, 255],
    ] {
        let whole = raw::external(1, 0, 0x40, entries);
        for off in -5i32..=5 {
            let mut element = whole.clone();
            element.resize((whole.len() as i32 + off) as usize, 0);
            raw::mend_element(&mut element);
            let name = format!("external RGB {entries:?} and {off} bytes");
            add_element(cases, &name, element);
        }
    }
}

/// Each ENTRIES byte of three with other values than its pairs have; a reserved chip identifier beside blocks
/// that do not fill.
fn odd_blocks(cases: &mut Vec<Case>) {
    for at in [12, 21, 26] {
        for said in [0u8, 1, 2, 3, 4, 64, 255] {
            let mut element = raw::external(1, 3, 0x05, [2, 1, 3]);
            element[at] = said;
            add_element(cases, &format!("ENTRIES at {at} says {said}"), element);
        }
    }
    let mut element = raw::external(1, 9, 0x40, [1, 1, 1]);
    element[11] = 0;
    element[12] = 2;
    add_element(cases, "reserved codes and odd blocks", element);
}
