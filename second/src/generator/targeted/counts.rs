//! Rules 11 and 12: the 97th element, the 13th zone, numbers a second time.

use super::{add, Case};
use crate::generator::raw;

pub fn cases(cases: &mut Vec<Case>) {
    elements(cases);
    ninety_seventh(cases);
    zones(cases);
    twice(cases);
}

/// The smallest strings, numbered from 1.
fn strings(count: usize) -> Vec<Vec<u8>> {
    (1..=count)
        .map(|number| raw::text(number as u8, &[]))
        .collect()
}

fn zones_from(first: u8, count: usize) -> Vec<Vec<u8>> {
    (0..count)
        .map(|at| raw::zone(first.wrapping_add(at as u8), 0))
        .collect()
}

fn elements(cases: &mut Vec<Case>) {
    for count in [1, 2, 48, 95, 96, 97, 98, 255] {
        add(
            cases,
            format!("{count} strings"),
            raw::table(&strings(count)),
        );
    }
    for count in [95, 96, 97] {
        let mut elements = vec![raw::led(1, [0xFF; 3]); count - 1];
        elements.push(raw::zone(1, 0));
        add(
            cases,
            format!("{count} with dark LEDs"),
            raw::table(&elements),
        );
    }
}

/// What the 97th may be without changing its answer: 6 goes before it, 7 to 12 after it.
fn ninety_seventh(cases: &mut Vec<Case>) {
    let lasts: [(&str, Vec<u8>); 9] = [
        ("one byte", vec![0x0C]),
        ("length 2", vec![0x0C, 2, 0]),
        ("length past the end", vec![0x0C, 7, 0, 1, 9, 4]),
        ("unknown", vec![0x77, 3, 0]),
        ("short layout", vec![0x03, 3, 0]),
        ("string 0", raw::text(0, &[])),
        ("string 1 again", raw::text(1, &[])),
        ("bad pin", raw::fan(1, 0x07, 0xFF)),
        ("zone", raw::zone(1, 0)),
    ];
    for (name, last) in lasts {
        let mut elements = strings(96);
        elements.push(last.clone());
        add(cases, format!("97th is {name}"), raw::table(&elements));
        let mut elements = strings(95);
        elements.push(last);
        add(cases, format!("96th is {name}"), raw::table(&elements));
    }
    let mut elements = zones_from(1, 12);
    elements.extend(strings(84));
    elements.push(raw::zone(100, 0));
    add(
        cases,
        "13th zone is the 97th element",
        raw::table(&elements),
    );
}

fn zones(cases: &mut Vec<Case>) {
    for count in [11, 12, 13, 14] {
        let elements = zones_from(250, count);
        add(cases, format!("{count} zones"), raw::table(&elements));
    }
    for last in [raw::zone(1, 0), raw::zone(12, 0), raw::zone(5, 77)] {
        let mut elements = zones_from(1, 12);
        elements.push(last.clone());
        let name = format!("13th zone repeats {}", last[3]);
        add(cases, name, raw::table(&elements));
        elements.insert(12, raw::text(1, &[]));
        let name = format!("13th zone repeats {}, after a string", last[3]);
        add(cases, name, raw::table(&elements));
    }
    let mut elements = zones_from(1, 12);
    elements.push(raw::zone(3, 0)[..29].to_vec());
    raw::mend_element(&mut elements[12]);
    add(cases, "13th zone of 29 bytes", raw::table(&elements));
}

fn twice(cases: &mut Vec<Case>) {
    let mut other_locale = raw::text(7, b"xy");
    other_locale[4] = 0x07;
    let pairs: [(&str, Vec<u8>, Vec<u8>); 7] = [
        ("string twice", raw::text(7, &[]), raw::text(7, &[])),
        ("string in two locales", raw::text(7, &[]), other_locale),
        (
            "string 255 twice",
            raw::text(255, &[]),
            raw::text(255, b"ab"),
        ),
        ("zone 0 twice", raw::zone(0, 0), raw::zone(0, 0)),
        ("zone 255 twice", raw::zone(255, 0), raw::zone(255, 0)),
        ("zone of two strings", raw::zone(9, 0), raw::zone(9, 100)),
        ("string and zone 9", raw::text(9, &[]), raw::zone(9, 0)),
    ];
    for (name, one, other) in pairs {
        let both = [one.clone(), other.clone()];
        add(cases, name, raw::table(&both));
        let apart = [one, raw::text(100, b"in between"), other];
        add(cases, format!("{name}, apart"), raw::table(&apart));
    }
    for step in [64, 128, 192] {
        let elements = [raw::text(5, &[]), raw::text(5 + step, &[])];
        add(
            cases,
            format!("strings {step} apart"),
            raw::table(&elements),
        );
        let elements = [raw::zone(0, 0), raw::zone(step, 0)];
        add(cases, format!("zones {step} apart"), raw::table(&elements));
    }
}
