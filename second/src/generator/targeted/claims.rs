//! Rule 15: every pair of claimants in both orders, clashes within one element, several at once.

use super::{add, Case};
use crate::generator::raw::{self, Parts};

pub fn cases(cases: &mut Vec<Case>) {
    let all = claimants();
    pairs(cases, &all);
    hardware(cases, &all);
    within(cases);
    several(cases);
}

/// One element for each way to claim each pin.
fn claimants() -> Vec<(String, Vec<u8>)> {
    let mut all = Vec::new();
    for bus in 0..3 {
        all.push((format!("bus {bus}"), raw::digital(1, bus, 0x22)));
    }
    let thirteen = [
        0x14, 0x15, 0x16, 0x17, 0x20, 0x21, 0x22, 0x23, 0x24, 0x25, 0x26, 0x27, 0x30,
    ];
    for pin in thirteen {
        let name = |kind: &str| format!("{kind} {pin:02X}h");
        all.push((name("analogue"), raw::analogue(1, pin)));
        all.push((name("current"), raw::current(1, pin)));
        all.push((name("light"), raw::led(1, [0xFF, pin, 0xFF])));
        all.push((name("select"), raw::controller(1, 3, pin, &[1])));
    }
    for pin in [0x14, 0x24, 0x30] {
        let name = |kind: &str| format!("{kind} {pin:02X}h");
        all.push((name("water level"), raw::water(1, pin)));
        all.push((name("voltage"), raw::voltage(1, pin)));
    }
    for pin in [0x05, 0x13, 0x14, 0x27, 0x30] {
        let select = raw::external(1, 3, pin, [0, 0, 1]);
        all.push((format!("external select {pin:02X}h"), select));
    }
    all.push(("external".into(), raw::external(1, 0, 0x22, [0; 3])));
    for pin in [0x05, 0x06, 0x11, 0x12, 0x13] {
        all.push((format!("fan {pin:02X}h"), raw::fan(1, pin, 0xFF)));
        all.push((format!("pump {pin:02X}h"), raw::pump(1, pin, 0xFF)));
        let select = raw::tachometer(1, 3, pin, 0, 0);
        all.push((format!("select {pin:02X}h"), select));
    }
    for pin in 0..5 {
        all.push((format!("light {pin:02X}h"), raw::led(1, [pin, 0xFF, 0xFF])));
    }
    all.push(("fan and tachometer".into(), raw::fan(1, 0x06, 0x12)));
    all.push(("RGB".into(), raw::rgb(1, 0x05, 0x11, 0x13)));
    all
}

fn pairs(cases: &mut Vec<Case>, all: &[(String, Vec<u8>)]) {
    for (one, first) in all {
        for (other, second) in all {
            let elements = [first.clone(), second.clone(), raw::zone(1, 0)];
            add(cases, format!("{one}, then {other}"), raw::table(&elements));
        }
    }
}

/// Each of the 25 pins strapped, then each claimant.
fn hardware(cases: &mut Vec<Case>, all: &[(String, Vec<u8>)]) {
    for pin in crate::pins::ALL {
        for (name, element) in all {
            let mut parts = Parts::of(&[raw::zone(1, 0), element.clone()]);
            parts.description[10] = pin;
            let title = format!("hardware {}, then {name}", crate::pins::name(pin));
            add(cases, title, parts.bytes());
        }
    }
}

/// Lights of one element on one pin.
fn within(cases: &mut Vec<Case>) {
    for pins in [
        [0x14, 0x14, 0xFF],
        [0x14, 0xFF, 0x14],
        [0xFF, 0x30, 0x30],
        [0x14, 0x14, 0x14],
        [0x00, 0x14, 0x00],
        [0x14, 0x15, 0x16],
    ] {
        let elements = [raw::zone(1, 0), raw::led(1, pins)];
        add(cases, format!("lights {pins:02X?}"), raw::table(&elements));
    }
}

/// Several clashes at once: the first claim that clashes with any earlier one.
fn several(cases: &mut Vec<Case>) {
    add_lights(cases, "a b b a", &[0x14, 0x15, 0x15, 0x14]);
    add_lights(cases, "a b a b", &[0x14, 0x15, 0x14, 0x15]);
    add_lights(cases, "a b c c a", &[0x14, 0x15, 0x16, 0x16, 0x14]);
    let light = |pin: u8| raw::led(1, [pin, 0xFF, 0xFF]);
    let within = raw::led(1, [0x15, 0x15, 0x14]);
    add_sequence(cases, "a, then b b within", &[light(0x14), within]);
    let select = raw::digital(1, 3, 0x20);
    let alone = raw::analogue(1, 0x20);
    let sequence = [select.clone(), select.clone(), alone.clone()];
    add_sequence(cases, "two selects, then alone", &sequence);
    let sequence = [alone, select.clone(), select.clone()];
    add_sequence(cases, "alone, then two selects", &sequence);
    let bus = raw::digital(1, 0, 0x40);
    let sequence = [light(0x03), light(0x20), light(0x20), bus.clone()];
    add_sequence(cases, "light on the bus, later a pair", &sequence);
    let sequence = [bus, light(0x04), light(0x20), light(0x20)];
    add_sequence(cases, "bus, then a light on it, then a pair", &sequence);
    let sequence = [light(0x00), light(0x20), select];
    add_sequence(cases, "shared and own of one element both clash", &sequence);
}

/// One LED element for each pin.
fn add_lights(cases: &mut Vec<Case>, name: &str, pins: &[u8]) {
    let lights: Vec<Vec<u8>> = pins
        .iter()
        .map(|&pin| raw::led(1, [pin, 0xFF, 0xFF]))
        .collect();
    add_sequence(cases, name, &lights);
}

/// The elements with their zone, and again with a clash of the hardware revision pins before.
fn add_sequence(cases: &mut Vec<Case>, name: &str, elements: &[Vec<u8>]) {
    let mut all = vec![raw::zone(1, 0)];
    all.extend_from_slice(elements);
    add(cases, name, raw::table(&all));
    let mut parts = Parts::of(&all);
    parts.description[9..12].copy_from_slice(&[0x15, 0x22, 0x22]);
    add(cases, format!("{name}, hardware too"), parts.bytes());
}
