//! Texts that follow from the papers: every field of every kind altered by itself, and what 5/14 of document 02 and its rulings
//! say of kinds, partners, reserved places and refusals. No pin of these tables is one of the four, so that both chips answer the same.

use crate::known::{changed, with, C, F, ZONE_1};
use crate::outcome::Outcome;
use second::generator::altered;
use second::{Refusal, Refused};
use std::rc::Rc;

pub struct Row {
    pub name: &'static str,
    pub one: Rc<[u8]>,
    pub two: Rc<[u8]>,
    pub wanted: Outcome,
}

fn lines(name: &'static str, one: &[u8], two: &[u8], text: &str) -> Row {
    Row {
        name,
        one: one.into(),
        two: two.into(),
        wanted: Outcome {
            answer: super::packed(Ok(text.len())),
            buffer: text.into(),
        },
    }
}

/// The first or the second table is refused, and no byte is written.
fn refused(
    name: &'static str,
    one: &[u8],
    two: &[u8],
    (table, number, place): (u8, u8, usize),
) -> Row {
    let refusal = Refusal::at(number, place);
    Row {
        name,
        one: one.into(),
        two: two.into(),
        wanted: super::packed(Err(Refused { table, refusal })).into(),
    }
}

pub fn rows() -> Vec<Row> {
    let mut rows = of_fields();
    rows.extend(of_kinds());
    rows.extend(of_reserved_places());
    rows.extend(of_refusals());
    rows
}

/// A line and no other, and with the tables exchanged its sides exchanged.
fn of_fields() -> Vec<Row> {
    let mut rows = Vec::new();
    for row in altered() {
        rows.push(lines(row.field, &row.one, &row.two, &row.line));
        let fields: Vec<&str> = row.line.trim_end().split('\t').collect();
        let [d, one, two, name, first, second] = fields[..] else {
            continue;
        };
        let back = format!("{d}\t{two}\t{one}\t{name}\t{second}\t{first}\n");
        rows.push(lines(row.field, &row.two, &row.one, &back));
    }
    rows
}

fn of_kinds() -> Vec<Row> {
    let a = with(&[]);
    let fan = with(&[&F, &ZONE_1]);
    let behind = with(&[&ZONE_1, &F]);
    let controller = with(&[&C, &ZONE_1]);
    let pump = with(&[&changed(&F, &[(0, 6)]), &ZONE_1]);
    let string = &[0x0C, 8, 0, 1, 9, 4, 0x41, 0][..];
    let more = with(&[&F, &ZONE_1, string]);
    vec![
        lines("A and A", &a, &a, ""),
        lines("a fan and itself", &fan, &fan, ""),
        lines(
            "A and a fan",
            &a,
            &fan,
            "D\t-\t16\tkind\t-\t03\nD\t-\t32\tkind\t-\t0B\n",
        ),
        lines(
            "a fan and A",
            &fan,
            &a,
            "D\t16\t-\tkind\t03\t-\nD\t32\t-\tkind\t0B\t-\n",
        ),
        lines(
            "exchanged",
            &fan,
            &behind,
            "D\t16\t16\tkind\t03\t0B\nD\t32\t46\tkind\t0B\t03\n",
        ),
        lines("fan, pump", &fan, &pump, "D\t16\t16\tkind\t03\t06\n"),
        lines(
            "other offsets",
            &fan,
            &controller,
            "D\t16\t16\tkind\t03\t09\n",
        ),
        lines("one longer", &fan, &more, "D\t-\t62\tkind\t-\t0C\n"),
        lines("one shorter", &more, &fan, "D\t62\t-\tkind\t0C\t-\n"),
    ]
}

fn of_reserved_places() -> Vec<Row> {
    let plain = with(&[&C, &ZONE_1]);
    let tainted = changed(
        &plain,
        &[
            (12, 1),
            (13, 2),
            (14, 3),
            (15, 4),
            (24, 0xF0),
            (25, 0x41),
            (26, 0xA5),
        ],
    );
    let old = with(&[&changed(&C, &[(8, 0xF2), (9, 0x43)]), &ZONE_1]);
    vec![
        lines("reserved places", &plain, &tainted, ""),
        lines("reserved places", &tainted, &plain, ""),
        lines("block mode", &old, &old, ""),
        lines(
            "block mode and none",
            &old,
            &plain,
            "D\t16\t16\tbus type\t2\t0\nD\t16\t16\tdevice address\t33\t32\n",
        ),
        lines(
            "content of a zone",
            &plain,
            &changed(&plain, &[(38, 0xFC)]),
            &{
                let zeros = "00".repeat(24);
                format!("D\t33\t33\tvariable part\t010000{zeros}\t0100FC{zeros}\n")
            },
        ),
    ]
}

fn of_refusals() -> Vec<Row> {
    let fan = with(&[&F, &ZONE_1]);
    let no_zone = with(&[&F]);
    let twice = with(&[&ZONE_1, &ZONE_1]);
    let old = with(&[&changed(&C, &[(8, 2)])]);
    let long = [&fan[..], &[0; 4100]].concat();
    let larger = [&with(&[])[..], &[0; 65_536]].concat();
    vec![
        refused("no zone", &no_zone, &fan, (1, 13, 16)),
        refused("no zone", &fan, &no_zone, (2, 13, 16)),
        refused("both", &no_zone, &twice, (1, 13, 16)),
        refused("both", &twice, &no_zone, (1, 12, 46)),
        refused("empty", &[], &[], (1, 1, 0)),
        refused("empty", &fan, &[], (2, 1, 0)),
        refused("15 bytes", &fan[..15], &fan, (1, 1, 0)),
        refused("revision", &fan, &changed(&fan, &[(0, 0x10)]), (2, 2, 0)),
        refused("too long", &fan, &long, (2, 3, 0)),
        refused("too long", &larger, &fan, (1, 3, 0)),
        refused("block mode, no zone", &fan, &old, (2, 13, 16)),
        refused(
            "a lamp's pin",
            &with(&[&changed(&F, &[(8, 6), (9, 5)])]),
            &long,
            (1, 10, 16),
        ),
    ]
}
