//! Tables and lines that follow from the papers: fan F, controller C and zone 1 of document 01, damaged in each of the ways of
//! which 14/14 of document 02 and its rulings speak. No pin of theirs is one of the four, so that both chips answer the same.

use super::asking::{Reply, UNWRITTEN};
use crate::answer::Answer;
use crate::known::{changed, with, C, F, ZONE_1};
use std::rc::Rc;

pub struct Row {
    pub name: &'static str,
    pub file: Rc<[u8]>,
    pub room: usize,
    pub wanted: Reply,
}

/// A string of no text, and a lamp that is dark, in zone 1.
const STRING_1: [u8; 6] = [0x0C, 6, 0, 1, 9, 4];
const LAMP: [u8; 14] = [4, 14, 0, 0, 0xFF, 0xFF, 0xFF, 1, 0xFF, 0, 0xFF, 0, 0xFF, 0];
/// A current sensor on P1.4; its reserved byte is 9.
const CURRENT: [u8; 14] = [8, 14, 0, 0, 0xFF, 0xFF, 0xFF, 1, 0x14, 0, 0, 0, 0x2C, 1];

/// What comes of this table, with just enough room for it.
fn saved(name: &'static str, file: &[u8], table: Vec<u8>, elements: usize, lines: &str) -> Row {
    let answer = Answer::of(0, table.len() + (lines.len() << 16));
    Row {
        name,
        file: file.into(),
        room: table.len(),
        wanted: Reply {
            answer,
            again: Answer::of(0, table.len()),
            checked: Answer::of(0, elements),
            out: table,
            lines: lines.into(),
        },
    }
}

/// Table A with these elements, of which those are left.
fn left(name: &'static str, elements: &[&[u8]], kept: &[&[u8]], lines: &str) -> Row {
    saved(name, &with(elements), with(kept), kept.len(), lines)
}

/// It is refused in so much room, and every byte is left.
fn refused(name: &'static str, file: &[u8], room: usize, number: u8) -> Row {
    Row {
        name,
        file: file.into(),
        room,
        wanted: Reply {
            answer: Answer::of(number, 0),
            out: vec![UNWRITTEN; room],
            lines: Vec::new(),
            checked: Answer(0),
            again: Answer(0),
        },
    }
}

pub fn rows() -> Vec<Row> {
    let mut rows = of_good_tables();
    rows.extend(of_the_pass());
    rows.extend(of_counts());
    rows.extend(of_zones_and_strings());
    rows.extend(of_clashes());
    rows.extend(of_refusals());
    rows
}

fn of_good_tables() -> Vec<Row> {
    let fan = with(&[&F, &ZONE_1]);
    let tainted = changed(&fan, &[(1, 0xFF), (2, 0xFF), (12, 1), (15, 0xA5)]);
    let cut = [&fan[..], &[0x03, 16]].concat();
    let across = [&fan[..], &[0x0C, 7, 0, 1, 9, 4]].concat();
    let padded = [&fan[..], &[0xFF; 5_000]].concat();
    let reserved = changed(&C, &[(8, 0xF0), (9, 0x41), (10, 0xA5)]);
    vec![
        left("A", &[], &[], ""),
        left("A, F, zone 1", &[&F, &ZONE_1], &[&F, &ZONE_1], ""),
        saved(
            "another length, and reserved bytes",
            &tainted,
            fan.clone(),
            2,
            "",
        ),
        saved("a header that is cut", &cut, fan.clone(), 2, ""),
        saved("an element that is cut", &across, fan.clone(), 2, ""),
        saved("over 4,096 bytes", &padded, fan, 2, ""),
        left("reserved places", &[&reserved, &ZONE_1], &[&C, &ZONE_1], ""),
    ]
}

fn of_the_pass() -> Vec<Row> {
    let unknown = &[0x0F, 3, 0][..];
    let short = &changed(&F[..15], &[(1, 15)])[..];
    let coded = &changed(&F, &[(9, 0xFF)])[..];
    let retired = &changed(&C, &[(8, 2)])[..];
    let descending = &changed(&F, &[(8, 6), (9, 5)])[..];
    let late = &changed(&F, &[(8, 0x11), (9, 0x12)])[..];
    let fans = |second: &'static str, elements: [&[u8]; 4], lines: &str| {
        left(
            second,
            &elements,
            &[elements[0], elements[2], elements[3]],
            lines,
        )
    };
    vec![
        left(
            "7",
            &[unknown, &F, &ZONE_1],
            &[&F, &ZONE_1],
            "16\t7\tleft out\n",
        ),
        left(
            "8",
            &[short, &F, &ZONE_1],
            &[&F, &ZONE_1],
            "16\t8\tleft out\n",
        ),
        left(
            "9",
            &[coded, &F, &ZONE_1],
            &[&F, &ZONE_1],
            "16\t9\tleft out\n",
        ),
        left(
            "23",
            &[retired, &C, &ZONE_1],
            &[&C, &ZONE_1],
            "16\t23\tleft out\n",
        ),
        left(
            "10",
            &[descending, &F, &ZONE_1],
            &[&F, &ZONE_1],
            "16\t10\tleft out\n",
        ),
        fans("F again", [&F, &F, late, &ZONE_1], "32\t10\tleft out\n"),
        fans(
            "too early, and ends late",
            [
                &changed(&F, &[(8, 6), (9, 0x11)]),
                &changed(&F, &[(9, 0x13)]),
                &changed(&F, &[(8, 0x12), (9, 0x13)]),
                &ZONE_1,
            ],
            "32\t10\tleft out\n",
        ),
        left(
            "zone 1 again",
            &[&ZONE_1, &ZONE_1, &F],
            &[&ZONE_1, &F],
            "46\t12\tleft out\n",
        ),
        left(
            "string 1 again",
            &[&STRING_1, &STRING_1],
            &[&STRING_1],
            "22\t12\tleft out\n",
        ),
        left(
            "two of no kind",
            &[unknown, &ZONE_1, unknown],
            &[&ZONE_1],
            "16\t7\tleft out\n49\t7\tleft out\n",
        ),
    ]
}

/// Thirteen zones; 96 strings and more.
fn of_counts() -> Vec<Row> {
    let numbered = |bytes: &[u8], number: u8| changed(bytes, &[(3, number)]);
    let zones: Vec<Vec<u8>> = (1..=13).map(|n| numbered(&ZONE_1, n)).collect();
    let strings: Vec<Vec<u8>> = (1..=97).map(|n| numbered(&STRING_1, n)).collect();
    let again = [&zones[..1], &zones[..12]].concat();
    let unknown = vec![0x0F, 3, 0];
    let one_left_out = [&[unknown.clone()][..], &strings].concat();
    let behind = [&strings[..96], &[unknown]].concat();
    let row = |name, elements: &[Vec<u8>], kept: &[Vec<u8>], lines: &str| {
        saved(name, &long(elements), long(kept), kept.len(), lines)
    };
    vec![
        row("a 13th zone", &zones, &zones[..12], "376\t11\tleft out\n"),
        row(
            "of 13 zones one twice",
            &again,
            &zones[..12],
            "46\t12\tleft out\n",
        ),
        row("97 strings", &strings, &strings[..96], ""),
        row(
            "97 strings, and one left out before",
            &one_left_out,
            &strings[..96],
            "16\t7\tleft out\n",
        ),
        row(
            "96 strings, and what is none behind",
            &behind,
            &strings[..96],
            "",
        ),
    ]
}

/// Table A and elements of more than 255 bytes together.
fn long(elements: &[Vec<u8>]) -> Vec<u8> {
    let mut table = [with(&[]), elements.concat()].concat();
    let length = table.len() as u16;
    table[1..3].copy_from_slice(&length.to_le_bytes());
    table
}

fn of_zones_and_strings() -> Vec<Row> {
    let described = |table: Vec<u8>| changed(&table, &[(4, 9)]);
    let named = &changed(&LAMP, &[(3, 2)])[..];
    let zone = &changed(&ZONE_1, &[(4, 2)])[..];
    let elsewhere = &changed(&LAMP, &[(3, 2), (7, 2)])[..];
    let three = described(with(&[named, zone, &STRING_1]));
    let all = "0\t14\tcleared\n16\t14\tcleared\n30\t14\tcleared\n";
    let early = &changed(&F, &[(7, 2), (8, 0x11), (9, 0x12)])[..];
    vec![
        left("A, F", &[&F], &[], "16\t13\tleft out\n"),
        left(
            "13 and no 14",
            &[elsewhere, &ZONE_1],
            &[&ZONE_1],
            "16\t13\tleft out\n",
        ),
        saved(
            "the description's string",
            &described(with(&[])),
            with(&[]),
            0,
            "0\t14\tcleared\n",
        ),
        saved(
            "three strings",
            &three,
            with(&[&LAMP, &ZONE_1, &STRING_1]),
            3,
            all,
        ),
        left(
            "none comes back",
            &[early, &F, &ZONE_1],
            &[&ZONE_1],
            "32\t10\tleft out\n16\t13\tleft out\n",
        ),
    ]
}

fn of_clashes() -> Vec<Row> {
    let twice = &changed(
        &LAMP,
        &[(3, 2), (8, 0x14), (9, 0x11), (10, 0x14), (11, 0x11)],
    )[..];
    let next = &changed(&LAMP, &[(8, 0x14), (9, 0x11), (10, 0x15), (11, 0x11)])[..];
    let free = &changed(&CURRENT, &[(8, 0x15)])[..];
    let elsewhere = &changed(&CURRENT, &[(7, 2)])[..];
    let select = &changed(&C, &[(8, 3), (9, 0x14)])[..];
    let strapped = |table: Vec<u8>| changed(&table, &[(9, 0x14)]);
    let hardware = strapped(with(&[&CURRENT, &ZONE_1]));
    vec![
        left(
            "one pin twice",
            &[&CURRENT, &CURRENT, &ZONE_1],
            &[&CURRENT, &ZONE_1],
            "30\t15\tleft out\n",
        ),
        left(
            "cleared, then left out",
            &[twice, &CURRENT, &ZONE_1],
            &[&CURRENT, &ZONE_1],
            "16\t14\tcleared\n16\t15\tleft out\n",
        ),
        left(
            "its other pin is free",
            &[&CURRENT, next, free, &ZONE_1],
            &[&CURRENT, free, &ZONE_1],
            "30\t15\tleft out\n",
        ),
        left(
            "the first has no zone",
            &[elsewhere, &CURRENT, &ZONE_1],
            &[&CURRENT, &ZONE_1],
            "16\t13\tleft out\n",
        ),
        left(
            "two chip selects",
            &[select, select, &ZONE_1],
            &[select, select, &ZONE_1],
            "",
        ),
        saved(
            "a hardware revision pin",
            &hardware,
            strapped(with(&[&ZONE_1])),
            1,
            "16\t15\tleft out\n",
        ),
    ]
}

fn of_refusals() -> Vec<Row> {
    let a = with(&[]);
    let fan = with(&[&F, &ZONE_1]);
    let lost = |name, changes: &[(usize, u8)]| refused(name, &changed(&fan, changes), 62, 24);
    vec![
        refused("empty", &[], 16, 24),
        refused("A without its last byte", &a[..15], 16, 24),
        lost("byte 0 10h", &[(0, 0x10)]),
        lost("device type 4", &[(3, 4)]),
        lost("126 power units", &[(8, 0x7E)]),
        lost("hardware revision 31h", &[(11, 0x31)]),
        lost("hardware revision 10h", &[(9, 0x10)]),
        lost("one hardware revision pin twice", &[(9, 0x14), (11, 0x14)]),
        refused("24 and no room", &a[..15], 0, 24),
        refused("A, and one byte less room", &a, 15, 16),
        refused("A, and no room", &a, 0, 16),
        refused("A, F, zone 1, and one byte less room", &fan, 61, 16),
    ]
}
