//! Rule 10 through the whole table: each pin of the fan list before and after each, in every kind that counts,
//! with others between; and beside what is refused before it or after it.

use super::{add, Case};
use crate::generator::raw::{self, Parts};

const FAN_LIST: [u8; 5] = [0x05, 0x06, 0x11, 0x12, 0x13];

pub fn cases(cases: &mut Vec<Case>) {
    let all = counted();
    for (one, first) in &all {
        for (other, second) in &all {
            let at = cases.len();
            let (between, elements) = &between()[at % between().len()];
            let name = format!("{one}, {between}, then {other}");
            add_sequence(cases, &name, first, elements, second);
        }
    }
    for one in FAN_LIST {
        for other in FAN_LIST {
            for (between, elements) in between() {
                let name = format!("{one:02X}h, {between}, then {other:02X}h, apart");
                let [first, second] = [raw::fan(1, one, 0xFF), raw::pump(1, other, 0xFF)];
                add_sequence(cases, &name, &first, &elements, &second);
            }
        }
    }
    not_counted(cases);
    three(cases);
    far_back(cases);
    company(cases);
}

/// Every kind that counts with every choice of its pins, in rising order.
fn counted() -> Vec<(String, Vec<u8>)> {
    let mut all = Vec::new();
    for (at, one) in FAN_LIST.into_iter().enumerate() {
        all.push((format!("fan {one:02X}h"), raw::fan(1, one, 0xFF)));
        all.push((format!("pump {one:02X}h"), raw::pump(1, one, 0xFF)));
        for (after, &two) in FAN_LIST[at + 1..].iter().enumerate() {
            // By turns, so that each pair of pins comes in one of the two kinds.
            let (kind, made) = match (at + after) % 2 {
                0 => ("fan", raw::fan as fn(u8, u8, u8) -> Vec<u8>),
                _ => ("pump", raw::pump as fn(u8, u8, u8) -> Vec<u8>),
            };
            all.push((format!("{kind} {one:02X}h {two:02X}h"), made(1, one, two)));
            for &three in &FAN_LIST[at + after + 2..] {
                let name = format!("RGB {one:02X}h {two:02X}h {three:02X}h");
                all.push((name, raw::rgb(1, one, two, three)));
            }
        }
    }
    all
}

/// What may stand between two that count; the chip selects are on no pin of the fan list.
fn between() -> [(&'static str, Vec<Vec<u8>>); 6] {
    [
        ("nothing", Vec::new()),
        ("a zone", vec![raw::zone(2, 0)]),
        ("a string", vec![raw::text(9, &[0x41, 0])]),
        ("a bus device", vec![raw::digital(1, 0, 0x40)]),
        ("a chip select", vec![raw::external(1, 3, 0x14, [0; 3])]),
        (
            "all sorts",
            vec![
                raw::text(9, &[]),
                raw::controller(1, 3, 0x14, &[1]),
                raw::zone(2, 0),
                raw::led(1, [0x30, 0xFF, 0xFF]),
                raw::water(1, 0x15),
            ],
        ),
    ]
}

fn add_sequence(
    cases: &mut Vec<Case>,
    name: &str,
    first: &[u8],
    between: &[Vec<u8>],
    second: &[u8],
) {
    let ends = [
        vec![first.to_vec()],
        between.to_vec(),
        vec![second.to_vec()],
    ];
    let mut elements = ends.concat();
    elements.push(raw::zone(1, 0));
    add(cases, name, raw::table(&elements));
}

/// Chip selects and hardware revision pins on the fan list, before and after.
fn not_counted(cases: &mut Vec<Case>) {
    for one in FAN_LIST {
        for other in FAN_LIST {
            let fan = raw::fan(1, other, 0xFF);
            for (kind, select) in [
                ("digital", raw::digital(1, 3, one)),
                ("controller", raw::controller(1, 3, one, &[1])),
                ("external RGB", raw::external(1, 3, one, [0; 3])),
            ] {
                let name = format!("{kind}'s select {one:02X}h, fan {other:02X}h");
                let first = [raw::zone(1, 0), select.clone(), fan.clone()];
                add(cases, &*name, raw::table(&first));
                let later = [raw::zone(1, 0), fan.clone(), select];
                add(cases, format!("{name} first"), raw::table(&later));
            }
            let mut parts = Parts::of(&[raw::zone(1, 0), fan]);
            parts.description[10] = one;
            let name = format!("hardware {one:02X}h, fan {other:02X}h");
            add(cases, name, parts.bytes());
        }
    }
}

/// Three in a row: the last of all before counts, and not the first or the one right before.
fn three(cases: &mut Vec<Case>) {
    for one in FAN_LIST {
        for two in FAN_LIST {
            for three in FAN_LIST {
                let elements = [
                    raw::zone(1, 0),
                    raw::pump(1, one, 0xFF),
                    raw::fan(1, two, 0xFF),
                    raw::pump(1, three, 0xFF),
                ];
                let name = format!("one after another {one:02X}h {two:02X}h {three:02X}h");
                add(cases, name, raw::table(&elements));
            }
        }
    }
}

/// The last one used may be any number of elements back.
fn far_back(cases: &mut Vec<Case>) {
    for other in FAN_LIST {
        let mut elements = vec![raw::zone(1, 0), raw::fan(1, 0x06, 0x11)];
        elements.extend((1..=92).map(|number| raw::text(number, &[])));
        elements.push(raw::pump(1, other, 0xFF));
        let name = format!("92 strings between 11h and {other:02X}h");
        add(cases, name, raw::table(&elements));
        elements.insert(2, raw::text(93, &[]));
        elements.insert(2, raw::text(94, &[]));
        let name = format!("the 97th has {other:02X}h after 11h");
        add(cases, name, raw::table(&elements));
    }
}

/// A second fan before the first, and another fault before it, behind it or in it.
fn company(cases: &mut Vec<Case>) {
    let zone = || raw::zone(1, 0);
    let first = || raw::fan(1, 0x11, 0x12);
    let early = || raw::pump(1, 0x05, 0xFF);
    let changed = |mut element: Vec<u8>, at: usize, byte: u8| {
        element[at] = byte;
        element
    };
    let light = || raw::led(1, [0x14, 0xFF, 0xFF]);
    let lists: [(&str, Vec<Vec<u8>>); 15] = [
        ("alone", vec![zone(), first(), early()]),
        ("without a zone", vec![first(), early()]),
        (
            "an earlier zone missing",
            vec![zone(), changed(first(), 7, 9), early()],
        ),
        (
            "an earlier string missing",
            vec![zone(), changed(first(), 3, 9), early()],
        ),
        (
            "an earlier clash",
            vec![zone(), light(), light(), first(), early()],
        ),
        (
            "a zone twice before",
            vec![zone(), zone(), first(), early()],
        ),
        (
            "a zone twice behind",
            vec![zone(), first(), early(), zone()],
        ),
        (
            "an unknown one before",
            vec![vec![0x77, 3, 0], first(), early()],
        ),
        (
            "an unknown one behind",
            vec![first(), early(), vec![0x77, 3, 0]],
        ),
        (
            "two bytes behind",
            vec![zone(), first(), early(), vec![1, 2]],
        ),
        ("too long", vec![zone(), first(), raw::element(6, &[0; 14])]),
        (
            "PPR without tachometer",
            vec![zone(), first(), changed(early(), 10, 1)],
        ),
        (
            "its own order wrong",
            vec![zone(), first(), raw::fan(1, 0x06, 0x05)],
        ),
        (
            "block mode before",
            vec![zone(), first(), raw::digital(1, 2, 0x40), early()],
        ),
        (
            "block mode behind",
            vec![zone(), first(), early(), raw::digital(1, 2, 0x40)],
        ),
    ];
    for (name, elements) in lists {
        let name = format!("a second fan before the first, {name}");
        add(cases, name, raw::table(&elements));
    }
    let mut elements: Vec<Vec<u8>> = (1..=12).map(|number| raw::zone(number, 0)).collect();
    elements.extend([first(), early(), raw::zone(13, 0)]);
    let name = "a second fan before the first, then a 13th zone";
    add(cases, name, raw::table(&elements));
    elements.swap(13, 14);
    let name = "a 13th zone, then a second fan before the first";
    add(cases, name, raw::table(&elements));
    let mut parts = Parts::of(&[zone(), first(), early()]);
    parts.description[4] = 9;
    parts.description[9] = 0x10;
    let name = "a second fan before the first, description too";
    add(cases, name, parts.bytes());
}
