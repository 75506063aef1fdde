//! Rule 23: block mode in each kind that has a bus type, beside what is refused before it or after it. The
//! ordinary reader says 23 where the archive's goes on.

use super::{add, Case};
use crate::generator::raw::{self, Parts};

/// A kind that has a bus type, with this byte 8.
type Device = fn(u8) -> Vec<u8>;

const DEVICES: [(&str, Device); 4] = [
    ("digital", |bus| raw::digital(1, bus, 0x41)),
    ("controller", |bus| raw::controller(1, bus, 0x41, &[1, 2])),
    ("tachometer", |bus| raw::tachometer(1, bus, 0x41, 1, 0)),
    ("external RGB", |bus| raw::external(1, bus, 0x41, [1, 0, 1])),
];

pub fn cases(cases: &mut Vec<Case>) {
    for (name, device) in DEVICES {
        for bus in [0x02, 0x22, 0x82, 0xF2] {
            let name = format!("{name} with {bus:02X}h");
            company(cases, &name, &device(bus));
            beside_others(cases, &name, &device(bus));
        }
        for (other, second) in DEVICES {
            let elements = [raw::zone(1, 0), device(0x02), second(0xF2)];
            let name = format!("block mode in {name}, then in {other}");
            add(cases, name, raw::table(&elements));
        }
        lengths(cases, name, &device(0xF2));
    }
    empty_blocks(cases);
    zone_content(cases);
}

/// A zone has no bus type in byte 8: it is content.
fn zone_content(cases: &mut Vec<Case>) {
    let mut zone = raw::zone(1, 0);
    zone[8] = 0x02;
    let elements = [zone, raw::digital(1, 0x02, 0x40)];
    let name = "block mode, and 02h in a zone's byte 8";
    add(cases, name, raw::table(&elements));
}

/// The element alone, in its zone, without its string, before and after other faults.
fn company(cases: &mut Vec<Case>, name: &str, element: &[u8]) {
    let one = || element.to_vec();
    let zone = || raw::zone(1, 0);
    let unknown = || vec![0x77, 3, 0];
    let mut nameless = one();
    nameless[3] = 9;
    let mut longer = one();
    longer.push(0);
    raw::mend_element(&mut longer);
    let lists: [(&str, Vec<Vec<u8>>); 11] = [
        ("zoned", vec![zone(), one()]),
        ("without a zone", vec![one()]),
        ("twice", vec![one(), one(), zone()]),
        ("without its string", vec![zone(), nameless]),
        ("too long", vec![zone(), longer]),
        ("before an unknown element", vec![one(), unknown()]),
        ("after an unknown element", vec![unknown(), one()]),
        ("before a zone twice", vec![one(), zone(), zone()]),
        ("after a zone twice", vec![zone(), zone(), one()]),
        ("before two bytes", vec![zone(), one(), vec![1, 2]]),
        ("before string 0", vec![zone(), one(), raw::text(0, &[])]),
    ];
    for (beside, elements) in lists {
        add(cases, format!("{name}, {beside}"), raw::table(&elements));
    }
}

/// Beside a wrong pin, a wrong code and a clash, in both orders; with a strapped bus pin; as the 97th.
fn beside_others(cases: &mut Vec<Case>, name: &str, element: &[u8]) {
    let others: [(&str, Vec<u8>); 4] = [
        ("a wrong pin", raw::analogue(1, 0x10)),
        ("a pin of the four", raw::current(1, 0x24)),
        ("a reserved bus", raw::digital(1, 0xF4, 0x40)),
        ("a light on the bus", raw::led(1, [0x03, 0xFF, 0xFF])),
    ];
    for (beside, other) in others {
        let zone = || raw::zone(1, 0);
        let first = [zone(), element.to_vec(), other.clone()];
        add(cases, format!("{name}, then {beside}"), raw::table(&first));
        let later = [zone(), other, element.to_vec()];
        add(cases, format!("{name} after {beside}"), raw::table(&later));
    }
    let mut parts = Parts::of(&[raw::zone(1, 0), element.to_vec()]);
    parts.description[9] = 0x04;
    add(cases, format!("{name}, its bus strapped"), parts.bytes());
    let mut elements: Vec<Vec<u8>> = (1..=95).map(|number| raw::text(number, &[])).collect();
    elements.push(element.to_vec());
    add(cases, format!("{name} as the 96th"), raw::table(&elements));
    elements.insert(0, raw::zone(1, 0));
    add(cases, format!("{name} as the 97th"), raw::table(&elements));
}

/// 8 comes before 23: the element one byte shorter, and cut behind the bus type.
fn lengths(cases: &mut Vec<Case>, name: &str, element: &[u8]) {
    for length in [9, element.len() - 1] {
        let cut = raw::element(element[0], &element[3..length]);
        let title = format!("{name} in block mode of {length} bytes");
        add(cases, title, raw::table(&[raw::zone(1, 0), cut]));
    }
}

/// ENTRIES 0 and a reserved chip identifier are 9, and come before 23 too; seven blocks are 8.
fn empty_blocks(cases: &mut Vec<Case>) {
    for blocks in [&[0u8][..], &[1, 0], &[0, 1, 1], &[1; 6], &[1; 7], &[0; 7]] {
        for bus in [0x02, 0xF2] {
            let element = raw::controller(1, bus, 0x40, blocks);
            let name = format!("blocks {blocks:?} beside bus {bus:02X}h");
            add(cases, name, raw::table(&[raw::zone(1, 0), element]));
        }
    }
    for chip in [0, 1, 3, 4] {
        let mut element = raw::external(1, 0xF2, 0x40, [0; 3]);
        element[11] = chip;
        let name = format!("chip identifier {chip} beside block mode");
        add(cases, name, raw::table(&[raw::zone(1, 0), element]));
    }
}
