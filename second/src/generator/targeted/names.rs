//! Rules 13 and 14: zones and strings that are named and missing, earlier or later.

use super::{add, devices, Case};
use crate::generator::raw::{self, Parts};

pub fn cases(cases: &mut Vec<Case>) {
    for (name, element) in devices() {
        zone_of(cases, name, &element);
        string_of(cases, name, &element);
        order(cases, name, &element);
    }
    zone_string(cases);
    description(cases);
    several(cases);
}

fn zone_of(cases: &mut Vec<Case>, name: &str, element: &[u8]) {
    for zone in [0, 1, 2, 63, 64, 65, 127, 128, 191, 192, 255] {
        let mut element = element.to_vec();
        element[7] = zone;
        for declared in [0, 1, 64, 255] {
            let descriptor = raw::zone(declared, 0);
            let title = format!("{name} in zone {zone}, declared {declared}");
            let later = raw::table(&[element.clone(), descriptor.clone()]);
            add(cases, format!("{title} later"), later);
            let earlier = raw::table(&[descriptor, element.clone()]);
            add(cases, format!("{title} earlier"), earlier);
        }
        // A string of that number is no descriptor.
        let string = raw::text(zone.max(1), &[]);
        let table = raw::table(&[element, string]);
        add(cases, format!("{name} in zone {zone}, a string so"), table);
    }
}

fn string_of(cases: &mut Vec<Case>, name: &str, element: &[u8]) {
    for index in [0, 1, 2, 63, 64, 128, 255] {
        let mut element = element.to_vec();
        element[3] = index;
        for there in [1, 64, 255] {
            let string = raw::text(there, b"st");
            let zone = raw::zone(1, 0);
            let title = format!("{name} with string {index}, there is {there}");
            let later = raw::table(&[zone.clone(), element.clone(), string.clone()]);
            add(cases, format!("{title} later"), later);
            let earlier = raw::table(&[string, element.clone(), zone]);
            add(cases, format!("{title} earlier"), earlier);
        }
    }
}

/// 13 before 14 before 15, wherever in the table each stands.
fn order(cases: &mut Vec<Case>, name: &str, element: &[u8]) {
    let good = element.to_vec();
    let mut no_zone = good.clone();
    no_zone[7] = 77;
    let mut no_string = good.clone();
    no_string[3] = 77;
    let mut neither = no_zone.clone();
    neither[3] = 77;
    let sequences: [(&str, &[&Vec<u8>]); 6] = [
        ("no string, no zone", &[&no_string, &no_zone]),
        ("no zone, no string", &[&no_zone, &no_string]),
        ("neither", &[&neither]),
        ("clash, no string", &[&good, &good, &no_string]),
        ("clash, no zone", &[&good, &good, &no_zone]),
        ("clash, neither", &[&good, &good, &neither]),
    ];
    for (title, sequence) in sequences {
        let sequence: Vec<Vec<u8>> = sequence.iter().copied().cloned().collect();
        add_order(cases, &format!("{name}: {title}"), sequence);
    }
}

/// The sequence after its zone; with the string that it misses; with a faulty description too.
fn add_order(cases: &mut Vec<Case>, name: &str, sequence: Vec<Vec<u8>>) {
    let mut elements = vec![raw::zone(1, 0)];
    elements.extend(sequence);
    add(cases, name, raw::table(&elements));
    elements.push(raw::text(77, &[]));
    add(
        cases,
        format!("{name}, string there"),
        raw::table(&elements),
    );
    let mut parts = Parts::of(&elements);
    parts.description[4] = 78;
    parts.description[9] = 0x10;
    add(cases, format!("{name}, description too"), parts.bytes());
}

/// Two missing zones, and two missing strings of an element and a zone in both orders: the first counts. A zone's string is no
/// element's own, and no zone a string.
fn several(cases: &mut Vec<Case>) {
    let lamp = |zone: u8, string: u8| {
        let mut element = raw::led(zone, [0xFF; 3]);
        element[3] = string;
        element
    };
    let named = || [raw::zone(1, 7), raw::text(7, b"zone")];
    let lists: [(&str, Vec<Vec<u8>>); 4] = [
        (
            "two zones missing",
            vec![raw::zone(1, 0), lamp(2, 0), lamp(3, 0)],
        ),
        (
            "a lamp's string missing, then its zone's",
            vec![lamp(1, 9), raw::zone(1, 8)],
        ),
        (
            "a zone's string missing, then its lamp's",
            vec![raw::zone(1, 8), lamp(1, 9)],
        ),
        (
            "a lamp without a name in a zone with one",
            [&named()[..], &[lamp(1, 0)]].concat(),
        ),
    ];
    for (name, elements) in lists {
        add(cases, name, raw::table(&elements));
    }
    let mut parts = Parts::of(&[raw::zone(9, 0)]);
    parts.description[4] = 9;
    add(
        cases,
        "description with a zone's number for a string",
        parts.bytes(),
    );
}

fn zone_string(cases: &mut Vec<Case>) {
    for index in 0..=255u8 {
        let zone = raw::zone(3, index);
        add(
            cases,
            format!("zone with string {index}"),
            raw::table(std::slice::from_ref(&zone)),
        );
        let string = raw::text(index.max(1), &[]);
        let table = raw::table(&[zone, string]);
        add(cases, format!("zone with string {index}, there"), table);
    }
}

fn description(cases: &mut Vec<Case>) {
    for index in 0..=255u8 {
        let mut parts = Parts::of(&[raw::text(200, b"name")]);
        parts.description[4] = index;
        add(
            cases,
            format!("description with string {index}"),
            parts.bytes(),
        );
    }
    let mut parts = Parts::of(&[raw::zone(1, 9), raw::text(8, &[])]);
    parts.description[4] = 9;
    add(cases, "description and zone miss a string", parts.bytes());
    let mut parts = Parts::of(&[raw::fan(2, 0x05, 0xFF)]);
    parts.description[4] = 9;
    add(
        cases,
        "description misses a string, fan a zone",
        parts.bytes(),
    );
}
