//! Rule 9: reserved codes and the other contents it names.

use super::{add_element, Case};
use crate::generator::raw;

pub fn cases(cases: &mut Vec<Case>) {
    bus_types(cases);
    thermal(cases);
    lights(cases);
    pulses(cases);
    at_will(cases);
    reserved_places(cases);
    for number in 0..=255u8 {
        let element = raw::text(number, b"tt");
        add_element(cases, &format!("string {number}"), element);
    }
}

/// Every bus type, with the reserved bits clear and set, beside every sort of address.
fn bus_types(cases: &mut Vec<Case>) {
    for bus in 0..16u8 {
        for high in [0x00, 0x10, 0x80, 0xF0] {
            for address in [0x00, 0x01, 0x14, 0x40, 0x41, 0xEE, 0xFF] {
                let byte = high | bus;
                let name = |kind: &str| format!("{kind}, bus {byte:02X}h, address {address:02X}h");
                add_element(cases, &name("digital"), raw::digital(1, byte, address));
                let element = raw::controller(1, byte, address, &[1]);
                add_element(cases, &name("controller"), element);
                let element = raw::tachometer(1, byte, address, 0, 0);
                add_element(cases, &name("tachometer"), element);
                let element = raw::external(1, byte, address, [0; 3]);
                add_element(cases, &name("external RGB"), element);
            }
        }
    }
}

fn thermal(cases: &mut Vec<Case>) {
    for code in 0..=255u8 {
        let mut element = raw::analogue(1, 0x14);
        element[8] = code;
        add_element(cases, &format!("thermal type byte {code:02X}h"), element);
    }
    for at in [10, 12, 14, 16, 18] {
        for value in [0u16, 255, 256, 1022, 1023, 1024, 1025, 2047, 0x8000, 0xFFFF] {
            let mut element = raw::analogue(1, 0x14);
            element[at..at + 2].copy_from_slice(&value.to_le_bytes());
            add_element(cases, &format!("calibration {value} at {at}"), element);
        }
    }
    let mut element = raw::analogue(1, 0x13);
    element[19] = 4;
    add_element(cases, "calibration over 1023 and bad pin", element);
}

/// Every colour and purpose beside a used and an unused pin, in each place.
fn lights(cases: &mut Vec<Case>) {
    for place in 0..3 {
        for pin in [0x14, 0xFF, 0xEE, 0x10] {
            for code in 0..=255u8 {
                let mut pins = [0xFF; 3];
                pins[place] = pin;
                let mut element = raw::led(1, pins);
                element[9 + 2 * place] = code;
                let name = format!("light {place} on {pin:02X}h with code {code:02X}h");
                add_element(cases, &name, element);
            }
        }
    }
    let mut element = raw::led(1, [0x31, 0x14, 0xFF]);
    element[11] = 0x60;
    add_element(cases, "bad pin, then a reserved colour", element);
}

fn pulses(cases: &mut Vec<Case>) {
    for pulses in [0, 1, 2, 128, 255] {
        for tachometer in [0x06, 0x05, 0x0F, 0xF0, 0xFE, 0xFF] {
            let mut element = raw::fan(1, 0x05, tachometer);
            element[10] = pulses;
            let name = format!("PPR {pulses} beside tachometer {tachometer:02X}h");
            add_element(cases, &name, element);
        }
    }
    let mut element = raw::fan(1, 0x07, 0xFF);
    element[10] = 1;
    add_element(cases, "PPR without tachometer and bad PWM", element);
}

/// What looks like a fault, and no rule says so: ends exchanged, no register for the upper byte, a duty cycle over 100,
/// one axis unknown.
fn at_will(cases: &mut Vec<Case>) {
    let changes: [(&str, Vec<u8>, usize, &[u8]); 7] = [
        (
            "minimum RPM over maximum",
            raw::fan(1, 0x05, 0x06),
            11,
            &[0xFF, 0xFF, 0, 0],
        ),
        ("duty cycle FFh", raw::fan(1, 0x05, 0x06), 15, &[0xFF]),
        (
            "IMAX under IMIN",
            raw::current(1, 0x14),
            10,
            &[0x2C, 1, 0, 0],
        ),
        (
            "maximum under minimum temp",
            raw::digital(1, 0, 0x40),
            15,
            &[0xFF, 3, 100, 0, 0, 0],
        ),
        ("MSB register FFh", raw::digital(1, 0, 0x40), 13, &[0xFF, 0]),
        (
            "MSB register FFFFh",
            raw::digital(1, 0, 0x40),
            13,
            &[0xFF, 0xFF],
        ),
        ("one axis unknown", raw::led(1, [0xFF; 3]), 4, &[1, 0xFF, 3]),
    ];
    for (name, mut element, at, bytes) in changes {
        element[at..at + bytes.len()].copy_from_slice(bytes);
        add_element(cases, name, element);
    }
}

/// All reserved places of each kind FFh; the table stays accepted.
fn reserved_places(cases: &mut Vec<Case>) {
    let mut digital = raw::digital(1, 0xF0, 0x91);
    digital[10] = 0xFF;
    let mut analogue = raw::analogue(1, 0x22);
    analogue[8] = 0xF1;
    let mut current = raw::current(1, 0x23);
    current[9] = 0xFF;
    let mut controller = raw::controller(1, 0xF1, 0x41, &[1]);
    controller[10] = 0xFF;
    let mut tachometer = raw::tachometer(1, 0xF3, 0x24, 1, 1);
    tachometer[10..12].fill(0xFF);
    let mut external = raw::external(1, 0xF0, 0x41, [1, 1, 1]);
    external[10] = 0xFF;
    let mut led = raw::led(1, [0xFF; 3]);
    led[9] = 0xFF;
    led[11] = 0x06;
    led[13] = 0x60;
    let mut zone = raw::zone(1, 0);
    zone[5..].fill(0xFF);
    let all = [
        digital, analogue, current, controller, tachometer, external, led,
    ];
    for element in &all {
        let name = format!("reserved places of {:02X}h", element[0]);
        add_element(cases, &name, element.clone());
    }
    let mut table = all.to_vec();
    table.push(zone);
    let mut bytes = raw::table(&table);
    bytes[12..16].fill(0xFF);
    super::add(cases, "all reserved places FFh", bytes);
}
