//! Answers that follow from the papers: fan F, controller C and zone 1 of document 01 in tables of their own, and the
//! pump and the other kinds of which 10/14 of document 02 speaks. No pin of theirs is one of the four and no bus is in
//! block mode, so that the answers are the same with all settings.

use crate::known::{changed, with, C, F, ZONE_1};
use std::rc::Rc;

pub struct Row {
    pub name: &'static str,
    pub table: Rc<[u8]>,
    pub zone: u8,
    pub number: u8,
    pub beside: usize,
}

/// 'Yes' after so many elements.
fn yes(name: &'static str, elements: &[&[u8]], zone: u8, visited: usize) -> Row {
    row(name, elements, zone, 0, 2 * visited + 1)
}

/// 'No' after so many, which are all.
fn no(name: &'static str, elements: &[&[u8]], zone: u8, visited: usize) -> Row {
    row(name, elements, zone, 0, 2 * visited)
}

fn row(name: &'static str, elements: &[&[u8]], zone: u8, number: u8, beside: usize) -> Row {
    Row {
        name,
        table: with(elements).into(),
        zone,
        number,
        beside,
    }
}

pub fn rows() -> Vec<Row> {
    let pump = &changed(&F, &[(0, 0x06)])[..];
    let second_fan = &changed(&F, &[(7, 2), (8, 0x11), (9, 0x12)])[..];
    let zone_2 = &changed(&ZONE_1, &[(3, 2)])[..];
    // Its byte 7 is content.
    let zone_5 = &changed(&ZONE_1, &[(7, 5)])[..];
    // String 1, whose one unit has 01h as its high byte: byte 7 of the element.
    let string = &[0x0C, 8, 0, 1, 9, 4, 0x41, 1][..];
    vec![
        no("A", &[], 0, 0),
        no("A", &[], 1, 0),
        yes("A, F, zone 1", &[&F, &ZONE_1], 1, 1),
        no("A, F, zone 1", &[&F, &ZONE_1], 0, 2),
        no("A, F, zone 1", &[&F, &ZONE_1], 2, 2),
        no("A, F, zone 1", &[&F, &ZONE_1], 255, 2),
        yes("A, zone 1, F", &[&ZONE_1, &F], 1, 2),
        yes("A, zone 1, a pump", &[&ZONE_1, pump], 1, 2),
        yes("A, a pump, zone 1", &[pump, &ZONE_1], 1, 1),
        no("A, C, zone 1", &[&C, &ZONE_1], 1, 2),
        yes("A, C, zone 1, F", &[&C, &ZONE_1, &F], 1, 3),
        yes("two fans", &[&F, second_fan, zone_2, &ZONE_1], 1, 1),
        yes("two fans", &[&F, second_fan, zone_2, &ZONE_1], 2, 2),
        no("two fans", &[&F, second_fan, zone_2, &ZONE_1], 3, 4),
        no("byte 7 of a zone", &[zone_5], 5, 1),
        no("byte 7 of a string", &[string], 1, 1),
        yes("both, and F", &[string, zone_5, &F], 1, 3),
        no("both, and F", &[string, zone_5, &F], 5, 3),
        row("A, F", &[&F], 1, 13, 16),
        row("A, F", &[&F], 2, 13, 16),
        row("A, F, F, zone 1", &[&F, &F, &ZONE_1], 1, 10, 32),
    ]
}
