//! Answers and bytes that follow from the papers: fan F, controller C and zone 1 of document 01, and the strings and
//! zones of which 13/14 of document 02 and its rulings speak. No pin of theirs is one of the four, so that both chips
//! answer the same.

use crate::answer::Answer;
use crate::known::{changed, with, C, F, ZONE_1};
use crate::outcome::Outcome;
use std::rc::Rc;

pub struct Row {
    pub name: &'static str,
    pub table: Rc<[u8]>,
    pub k: u64,
    pub wanted: Outcome,
}

/// Table A, whose description names this string.
fn described(string: u8, elements: &[&[u8]]) -> Vec<u8> {
    changed(&with(elements), &[(4, string)])
}

/// Element k is taken out of table A: the others are left, the length is theirs, and from there on stands what stood there.
fn goes(name: &'static str, elements: &[&[u8]], k: u64) -> Row {
    goes_from(name, 0, elements, k)
}

fn goes_from(name: &'static str, string: u8, elements: &[&[u8]], k: u64) -> Row {
    let table = described(string, elements);
    let mut left = elements.to_vec();
    left.remove(k as usize);
    let mut buffer = described(string, &left);
    let length = buffer.len();
    buffer.extend_from_slice(&table[length..]);
    let answer = Answer::of(0, length);
    Row {
        name,
        table: table.into(),
        k,
        wanted: Outcome { answer, buffer },
    }
}

/// It is refused, and every byte is left.
fn refused(name: &'static str, table: Vec<u8>, k: u64, number: u8, place: usize) -> Row {
    let answer = Answer::of(number, place);
    Row {
        name,
        k,
        wanted: Outcome {
            answer,
            buffer: table.clone(),
        },
        table: table.into(),
    }
}

/// Something names element k, which stands at this place.
fn named(name: &'static str, elements: &[&[u8]], k: u64, place: usize) -> Row {
    refused(name, with(elements), k, 22, place)
}

/// The description alone does.
fn described_so(name: &'static str, elements: &[&[u8]], k: u64, place: usize) -> Row {
    let string = elements[k as usize][3];
    refused(name, described(string, elements), k, 22, place)
}

pub fn rows() -> Vec<Row> {
    let mut rows = of_zones();
    rows.extend(of_strings());
    rows.extend(of_others());
    rows
}

fn of_zones() -> Vec<Row> {
    let zone_0 = &changed(&ZONE_1, &[(3, 0)])[..];
    let zone_2 = &changed(&ZONE_1, &[(3, 2)])[..];
    let in_zone_0 = &changed(&F, &[(7, 0)])[..];
    // Its byte 7, a fan's zone identifier, is content.
    let zone_5 = &changed(&ZONE_1, &[(3, 5), (7, 1)])[..];
    vec![
        goes("A, F, zone 1", &[&F, &ZONE_1], 0),
        named("A, F, zone 1", &[&F, &ZONE_1], 1, 32),
        named("A, zone 1, F", &[&ZONE_1, &F], 0, 16),
        goes("A, zone 1", &[&ZONE_1], 0),
        named("A, C, zone 1", &[&C, &ZONE_1], 1, 33),
        goes("A, C, zone 1", &[&C, &ZONE_1], 0),
        goes("A, zone 2, F, zone 1", &[zone_2, &F, &ZONE_1], 0),
        named("A, zone 2, F, zone 1", &[zone_2, &F, &ZONE_1], 2, 62),
        named("zone 0, a fan in it", &[zone_0, in_zone_0], 0, 16),
        goes("zone 0, a fan in it", &[zone_0, in_zone_0], 1),
        goes("zone 0, zone 1, F", &[zone_0, &ZONE_1, &F], 0),
        goes("byte 7 of another zone", &[&ZONE_1, zone_5], 0),
        goes("byte 7 of its own", &[&changed(&ZONE_1, &[(7, 1)])], 0),
    ]
}

fn of_strings() -> Vec<Row> {
    let string_1 = &[0x0C, 8, 0, 1, 9, 4, 0x41, 0][..];
    let string_2 = &[0x0C, 8, 0, 2, 1, 1, 1, 1][..];
    let named_fan = &changed(&F, &[(3, 1)])[..];
    let named_zone = &changed(&ZONE_1, &[(4, 1)])[..];
    let all = [named_fan, named_zone, string_1];
    vec![
        goes("string 1 alone", &[string_1], 0),
        described_so("named by the description", &[string_1], 0, 16),
        described_so("the second of two", &[string_1, string_2], 1, 24),
        goes_from("the other is named", 2, &[string_1, string_2], 0),
        goes_from("a zone of the string's number", 1, &[&ZONE_1, string_1], 0),
        named("named by a zone", &[named_zone, string_1], 1, 46),
        goes("the zone that names it", &[named_zone, string_1], 0),
        named("named by a fan", &[named_fan, string_1, &ZONE_1], 1, 32),
        goes("the fan that names it", &[named_fan, string_1, &ZONE_1], 0),
        named("zone and string named", &all, 1, 32),
        named("zone and string named", &all, 2, 62),
        goes("the first of the three", &all, 0),
        goes("in zone 1, and not string 1", &[&F, string_1, &ZONE_1], 1),
        goes("a string of ones", &[string_1, string_2], 0),
    ]
}

fn of_others() -> Vec<Row> {
    let a = || with(&[]);
    let fan = || with(&[&F, &ZONE_1]);
    let retired = with(&[&changed(&C, &[(8, 2)]), &ZONE_1]);
    let longer = [fan(), vec![0]].concat();
    let tainted = &changed(&C, &[(8, 0xF0), (9, 0x41), (10, 0xA5)])[..];
    vec![
        refused("A", a(), 0, 17, 0),
        refused("A", a(), u64::MAX, 17, 0),
        refused("A, F, zone 1", fan(), 2, 17, 0),
        refused("A, F, zone 1", fan(), 256, 17, 0),
        refused("A, F, zone 1", fan(), 1 << 32, 17, 0),
        refused("A, F, zone 1", fan(), 1 << 63, 17, 0),
        refused("empty", Vec::new(), 0, 1, 0),
        refused("A without its last byte", a()[..15].to_vec(), 0, 1, 0),
        refused("A, F", with(&[&F]), 0, 13, 16),
        refused("A, F", with(&[&F]), 1, 13, 16),
        refused("A, F, F, zone 1", with(&[&F, &F, &ZONE_1]), 1, 10, 32),
        refused("two zones 1", with(&[&ZONE_1, &ZONE_1]), 1, 12, 46),
        refused("block mode", retired.clone(), 0, 23, 16),
        refused("block mode", retired, 9, 23, 16),
        refused("a byte more than the table", longer, 0, 3, 0),
        goes("reserved places as they stand", &[tainted, &F, &ZONE_1], 1),
    ]
}
