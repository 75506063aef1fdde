//! Texts that follow from 3/14 of document 02 and its rulings, written out by hand. No pin of these tables is one of the four, so that
//! both chips answer the same.

use super::asking::of_steps;
use super::step::Step;
use crate::known::{changed, with, F, ZONE_1};
use crate::outcome::Outcome;
use second::generator::raw;
use std::rc::Rc;

pub struct Row {
    pub name: &'static str,
    pub table: Rc<[u8]>,
    pub trace: Rc<[u8]>,
    /// Without the text of the start.
    text: String,
    elements: usize,
}

pub const STEPS: [Step; 3] = [
    Step::Start(Some(0xA5)),
    Step::Reports { from: 0, size: 5 },
    Step::End,
];

impl Row {
    /// Number of elements; the text of the pieces; that of the end. Where one ends and the other begins is seen by the line feeds.
    pub fn wanted(&self) -> Vec<Outcome> {
        let ended = self.trace.iter().filter(|&&byte| byte == b'\n').count();
        let mut lines = self.text.split_inclusive('\n');
        let first: String = lines.by_ref().take(ended).collect();
        let rest: String = lines.collect();
        let outcome = |beside: usize, text: String| Outcome {
            answer: crate::answer::Answer::of(0, beside),
            buffer: text.into_bytes(),
        };
        vec![
            outcome(self.elements, String::new()),
            outcome(first.len(), first),
            outcome(rest.len(), rest),
        ]
    }

    pub fn second(&self, settings: u64) -> Vec<Outcome> {
        of_steps(&self.table, &self.trace, &STEPS, settings)
    }
}

/// Zone 1, and the element as number 1.
fn of(name: &'static str, element: &[u8], lines: &[(&str, &str)], tallies: &str) -> Row {
    let table = with(&[&ZONE_1, element]);
    let trace: String = lines.iter().map(|(line, _)| format!("{line}\n")).collect();
    let text: String = lines.iter().map(|(_, said)| format!("{said}\n")).collect();
    Row {
        name,
        table: table.into(),
        trace: trace.into_bytes().into(),
        text: format!("{text}0\t0\t0\t0\t0\t0\n1\t{tallies}\n"),
        elements: 2,
    }
}

/// The same with the last line left open.
fn open(name: &'static str, element: &[u8], lines: &[(&str, &str)], tallies: &str) -> Row {
    let mut row = of(name, element, lines, tallies);
    let length = row.trace.len();
    row.trace = row.trace[..length - 1].into();
    row
}

pub fn rows() -> Vec<Row> {
    let mut rows = of_conversions();
    rows.extend(of_lines());
    rows.extend(of_tallies());
    rows.push(Row {
        name: "no line, no element",
        table: with(&[]).into(),
        trace: Rc::new([]),
        text: String::new(),
        elements: 0,
    });
    rows
}

fn of_conversions() -> Vec<Row> {
    let sensor = raw::analogue(1, 0x14);
    let current = raw::current(1, 0x14);
    vec![
        of(
            "a fan",
            &F,
            &[
                ("0\t1\t0", "0"),
                ("0\t1\t1", "30"),
                ("0\t1\t65535", "1966050"),
                ("0\t1\t65536", "R\t19\t4"),
                ("0\t2\t65536", "R\t17\t5"),
                ("0\t0\t65536", "R\t18\t6"),
            ],
            "0\t1966050\t3\t0\t0",
        ),
        of(
            "a fan of PPR 0",
            &changed(&F, &[(10, 0)]),
            &[("0\t1\t65535", "R\t18\t1"), ("0\t1\t65536", "R\t19\t2")],
            "0\t0\t0\t0\t0",
        ),
        of(
            "a current that falls",
            &changed(&current, &[(10, 100), (12, 97), (13, 0)]),
            &[
                ("0\t1\t0", "100"),
                ("0\t1\t170", "100"),
                ("0\t1\t171", "99"),
                ("0\t1\t512", "98"),
                ("0\t1\t1023", "97"),
                ("0\t1\t1024", "R\t18\t6"),
            ],
            "97\t100\t5\t0\t0",
        ),
        of(
            "a voltage",
            &raw::voltage(1, 0x14),
            &[("0\t1\t0", "0"), ("0\t1\t511", "70"), ("0\t1\t1023", "140")],
            "0\t140\t3\t0\t0",
        ),
        of(
            "our own thermistor",
            &sensor,
            &[
                ("0\t1\t851", "under 0"),
                ("0\t1\t850", "0"),
                ("0\t1\t698", "253"),
                ("0\t1\t600", "375"),
                ("0\t1\t491", "513"),
                ("0\t1\t200", "1000"),
                ("0\t1\t199", "over 100"),
                ("0\t1\t1024", "R\t18\t8"),
            ],
            "0\t1000\t5\t1\t1",
        ),
        of(
            "equal neighbours",
            &changed(&sensor, &[(18, 0x40), (19, 1)]),
            &[("0\t1\t850", "R\t18\t1"), ("0\t1\t600", "R\t18\t2")],
            "0\t0\t0\t0\t0",
        ),
    ]
}

fn of_lines() -> Vec<Row> {
    let current = raw::current(1, 0x14);
    vec![
        of(
            "lines that are malformed",
            &current,
            &[
                ("", "R\t19\t1"),
                ("0\t1", "R\t19\t2"),
                ("0\t1\t", "R\t19\t3"),
                ("0\t1\t0\t", "R\t19\t4"),
                ("0\t1\t0\r", "R\t19\t5"),
                ("0 1 0", "R\t19\t6"),
                ("+0\t1\t0", "R\t19\t7"),
                ("0\t1\t0000000000", "R\t19\t8"),
                ("000000000\t000000001\t000000000", "0"),
            ],
            "0\t0\t1\t0\t0",
        ),
        of(
            "19 before 17 before 18",
            &current,
            &[
                ("86400\t2\t1024", "R\t19\t1"),
                ("86399\t2\t1024", "R\t17\t2"),
                ("86399\t1\t1024", "R\t18\t3"),
                ("86399\t1\t1023", "300"),
                ("0\t1\t512", "150"),
            ],
            "150\t300\t2\t0\t0",
        ),
        open(
            "a last line without a line feed",
            &current,
            &[("0\t1\t512", "150"), ("0\t1\t1023", "300")],
            "150\t300\t2\t0\t0",
        ),
        open(
            "a last line that is malformed",
            &current,
            &[("0\t1\t512", "150"), ("0\t1\t", "R\t19\t2")],
            "150\t150\t1\t0\t0",
        ),
    ]
}

fn of_tallies() -> Vec<Row> {
    let sensor = raw::analogue(1, 0x14);
    vec![
        of(
            "a first reading of 0",
            &sensor,
            &[("0\t1\t850", "0"), ("0\t1\t700", "250")],
            "0\t250\t2\t0\t0",
        ),
        of(
            "a least that is not 0",
            &sensor,
            &[
                ("0\t1\t900", "under 0"),
                ("0\t1\t500", "500"),
                ("0\t1\t700", "250"),
                ("0\t1\t0", "over 100"),
                ("86400\t1\t850", "R\t19\t5"),
            ],
            "250\t500\t2\t1\t1",
        ),
        of(
            "outside the points alone",
            &sensor,
            &[("0\t1\t1023", "under 0"), ("0\t1\t1023", "under 0")],
            "0\t0\t0\t2\t0",
        ),
    ]
}
