//! Rule 10: every pin byte in every pin field, and every order of the fan list.

use super::{add_element, Case};
use crate::generator::raw;

const FAN_LIST: [u8; 5] = [0x05, 0x06, 0x11, 0x12, 0x13];

pub fn cases(cases: &mut Vec<Case>) {
    for pin in 0..=255u8 {
        every_field(cases, pin);
        beside_both_others(cases, pin);
    }
    orders(cases);
}

fn every_field(cases: &mut Vec<Case>, pin: u8) {
    let fields: [(&str, Vec<u8>); 19] = [
        ("digital's select", raw::digital(1, 3, pin)),
        ("controller's select", raw::controller(1, 3, pin, &[1])),
        ("tachometer's select", raw::tachometer(1, 3, pin, 0, 1)),
        ("analogue", raw::analogue(1, pin)),
        ("current", raw::current(1, pin)),
        ("PWM alone", raw::fan(1, pin, 0xFF)),
        ("PWM", raw::fan(1, pin, 0x13)),
        ("tachometer", raw::fan(1, 0x05, pin)),
        ("pump's PWM", raw::pump(1, pin, 0xFF)),
        ("pump's tachometer", raw::pump(1, 0x05, pin)),
        ("water level", raw::water(1, pin)),
        ("voltage", raw::voltage(1, pin)),
        ("external select", raw::external(1, 3, pin, [0; 3])),
        ("first light", raw::led(1, [pin, 0xFF, 0xFF])),
        ("second light", raw::led(1, [0xFF, pin, 0xFF])),
        ("third light", raw::led(1, [0xFF, 0xFF, pin])),
        ("red", raw::rgb(1, pin, 0x12, 0x13)),
        ("green", raw::rgb(1, 0x05, pin, 0x13)),
        ("blue", raw::rgb(1, 0x05, 0x06, pin)),
    ];
    for (name, element) in fields {
        add_element(cases, &format!("{name} {pin:02X}h"), element);
    }
}

/// The third light beside two used ones: EEh means nothing here.
fn beside_both_others(cases: &mut Vec<Case>, pin: u8) {
    let element = raw::led(1, [0x14, 0x15, pin]);
    add_element(cases, &format!("two lights, then {pin:02X}h"), element);
}

fn orders(cases: &mut Vec<Case>) {
    for one in FAN_LIST {
        for two in FAN_LIST {
            let element = raw::fan(1, one, two);
            add_element(cases, &format!("fan {one:02X}h {two:02X}h"), element);
            let element = raw::pump(1, one, two);
            add_element(cases, &format!("pump {one:02X}h {two:02X}h"), element);
            for three in FAN_LIST {
                let element = raw::rgb(1, one, two, three);
                let name = format!("RGB {one:02X}h {two:02X}h {three:02X}h");
                add_element(cases, &name, element);
            }
        }
    }
}
