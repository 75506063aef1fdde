//! Rule 10 on two chips: every use on and around the four pins, alone and beside what is refused before it
//! or after it. With a pin of the four the 321 says 10 where the 320 goes on.

use super::{add, Case};
use crate::generator::raw::{self, Parts};
use crate::generator::AROUND;

pub fn cases(cases: &mut Vec<Case>) {
    for pin in AROUND {
        for (name, element) in uses(pin) {
            company(cases, &format!("{name} {pin:02X}h"), &element);
        }
        for at in 9..12 {
            strapped(cases, &format!("hardware {pin:02X}h at {at}"), at, pin);
        }
    }
}

/// One element for each use and each place of the pin.
fn uses(pin: u8) -> Vec<(&'static str, Vec<u8>)> {
    vec![
        ("analogue", raw::analogue(1, pin)),
        ("current", raw::current(1, pin)),
        ("water level", raw::water(1, pin)),
        ("voltage", raw::voltage(1, pin)),
        ("external select", raw::external(1, 3, pin, [0; 3])),
        ("first light", raw::led(1, [pin, 0xFF, 0xFF])),
        ("second light", raw::led(1, [0x14, pin, 0xFF])),
        ("third light", raw::led(1, [0x14, 0x15, pin])),
        ("digital's select", raw::digital(1, 3, pin)),
        ("controller's select", raw::controller(1, 3, pin, &[1])),
        ("tachometer's select", raw::tachometer(1, 3, pin, 0, 0)),
        // No pin: the same byte as a bus address, and as a code beside an unused light.
        ("bus address", raw::digital(1, 0, pin)),
        ("codes", beside_no_light(pin)),
    ]
}

fn beside_no_light(code: u8) -> Vec<u8> {
    let mut element = raw::led(1, [0xFF; 3]);
    element[9] = code;
    element
}

/// The element alone, in its zone, twice, without its string, before and after other faults.
fn company(cases: &mut Vec<Case>, name: &str, element: &[u8]) {
    let one = || element.to_vec();
    let zone = || raw::zone(1, 0);
    let mut nameless = one();
    nameless[3] = 9;
    let mut longer = one();
    longer.push(0);
    raw::mend_element(&mut longer);
    let lists: [(&str, Vec<Vec<u8>>); 10] = [
        ("zoned", vec![zone(), one()]),
        ("without a zone", vec![one()]),
        ("twice", vec![zone(), one(), one()]),
        ("without its string", vec![zone(), nameless]),
        ("too long", vec![zone(), longer]),
        ("before an unknown element", vec![one(), vec![0x77, 3, 0]]),
        ("after an unknown element", vec![vec![0x77, 3, 0], one()]),
        ("before a zone twice", vec![one(), zone(), zone()]),
        ("after a zone twice", vec![zone(), zone(), one()]),
        ("before two bytes", vec![zone(), one(), vec![1, 2]]),
    ];
    for (beside, elements) in lists {
        add(cases, format!("{name}, {beside}"), raw::table(&elements));
    }
    let mut parts = Parts::of(&[zone(), one()]);
    parts.description[9..11].copy_from_slice(&[0x24, 0x23]);
    add(cases, format!("{name}, strapped too"), parts.bytes());
}

/// A hardware revision pin, alone and beside faults of the description and of an element.
fn strapped(cases: &mut Vec<Case>, name: &str, at: usize, pin: u8) {
    let others: [(&str, usize, u8); 4] = [
        ("a wrong type", 3, 0),
        ("wrong power", 8, 126),
        ("a missing string", 4, 9),
        ("itself elsewhere", 9 + (at - 8) % 3, pin),
    ];
    for (beside, place, byte) in others {
        let mut parts = Parts::of(&[]);
        parts.description[at] = pin;
        parts.description[place] = byte;
        add(cases, format!("{name}, {beside}"), parts.bytes());
    }
    for (beside, element) in [("a fan", raw::fan(1, 5, 6)), ("two bytes", vec![1, 2])] {
        let mut parts = Parts::of(&[element]);
        parts.description[at] = pin;
        add(cases, format!("{name}, {beside}"), parts.bytes());
    }
}
