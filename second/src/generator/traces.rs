//! Traces for a table: lines of every kind, good ones and damaged ones at every boundary, and the pieces that they come in.

use crate::access::walk;
use crate::element::{id, word};
use crate::random::Random;
use crate::trace::PIECE;

/// Around the ends of a day.
const SECONDS: [&str; 9] = [
    "0",
    "1",
    "00000",
    "86398",
    "86399",
    "000086399",
    "43200",
    "86400",
    "999999999",
];

/// Fields that are no number of 1 to 9 digits, and some that are.
const FIELDS: [&[u8]; 24] = [
    b"",
    b" ",
    b" 1",
    b"1 ",
    b"+1",
    b"-1",
    b"-0",
    b"1.0",
    b"1,0",
    b"0x1",
    b"1e2",
    b"/",
    b":",
    b"A",
    b"\0",
    b"1\0",
    b"\r",
    b"1\r",
    b"\x0B",
    b"\xFF",
    b"0000000001",
    b"1000000000",
    b"000000001",
    b"999999999",
];

/// Counts around the edges of an element, whatever its kind; of a calibration around every point.
pub fn edge_counts(element: &[u8]) -> Vec<u64> {
    let mut counts = vec![0, 1, 511, 512, 1022, 1023, 1024, 65_534, 65_535, 65_536];
    if element[0] == id::ANALOGUE_SENSOR {
        for at in [10, 12, 14, 16, 18] {
            let point = u64::from(word(element, at));
            counts.extend([point.saturating_sub(1), point, point + 1]);
        }
    }
    counts.sort_unstable();
    counts.dedup();
    counts
}

/// So many lines for an accepted table. Most are ended; the last may lack its line feed, and may be empty.
pub fn trace(random: &mut Random, table: &[u8], lines: usize) -> Vec<u8> {
    let elements: Vec<&[u8]> = walk(table).map(|(_, element)| element).collect();
    let mut trace = Vec::new();
    for _ in 0..lines {
        let line = some_line(random, &elements);
        trace.extend_from_slice(&line);
        trace.push(b'\n');
    }
    if random.chance(30) {
        trace.pop();
    }
    trace
}

fn some_line(random: &mut Random, elements: &[&[u8]]) -> Vec<u8> {
    let (k, element) = some_element(random, elements);
    let count = some_count(random, element);
    let second = match random.chance(80) {
        true => random.below(86_400).to_string(),
        false => random.pick(&SECONDS).to_string(),
    };
    let fields = [second, padded(random, k), padded(random, count)].map(String::into_bytes);
    match random.chance(75) {
        true => fields.join(&b'\t'),
        false => damaged(random, fields),
    }
}

/// Leading zeros now and then, up to nine digits.
fn padded(random: &mut Random, number: u64) -> String {
    match random.below(12) {
        0 => format!("{number:09}"),
        1 => format!("0{number}"),
        _ => number.to_string(),
    }
}

/// Its number and its bytes; now and then a number past the last.
fn some_element<'t>(random: &mut Random, elements: &[&'t [u8]]) -> (u64, &'t [u8]) {
    if elements.is_empty() || random.chance(8) {
        let more = *random.pick(&[0, 0, 1, 255, 65_536, 999_999_999 - 96]);
        return (elements.len() as u64 + more, &[0]);
    }
    let converts = |k: &usize| {
        let kinds = [
            id::ANALOGUE_SENSOR,
            id::FAN,
            id::PUMP,
            id::VOLTAGE,
            id::CURRENT,
        ];
        kinds.contains(&elements[*k][0])
    };
    let with_one: Vec<usize> = (0..elements.len()).filter(converts).collect();
    let k = match with_one.is_empty() || random.chance(15) {
        true => random.below(elements.len()),
        false => *random.pick(&with_one),
    };
    (k as u64, elements[k])
}

fn some_count(random: &mut Random, element: &[u8]) -> u64 {
    match random.below(10) {
        0..=3 => *random.pick(&edge_counts(element)),
        4..=8 => random.below(1024) as u64,
        _ => random.below(1_000_000_000) as u64,
    }
}

/// A field put in the place of another, or a byte or a field too many or too few.
fn damaged(random: &mut Random, mut fields: [Vec<u8>; 3]) -> Vec<u8> {
    let at = random.below(3);
    match random.below(10) {
        0..=3 => fields[at] = random.pick(&FIELDS).to_vec(),
        4 => fields[at].insert(0, *random.pick(b"\t +-0")),
        5 => fields[at].push(*random.pick(b"\t \r\0/:")),
        6 => return fields[..2].join(&b'\t'),
        7 => return [&fields.join(&b'\t')[..], b"\t", b"0"].concat(),
        8 => return Vec::new(),
        _ => {
            let length = *random.pick(&[1, 2, 3, 12, 300, 3_000]);
            let byte = *random.pick(b"\t 0x\0");
            return vec![byte; length];
        }
    }
    fields.join(&b'\t')
}

/// Lengths of pieces that together are so many bytes; of a piece that is longer only 2,048 bytes are taken, and the next begins there.
pub fn pieces(random: &mut Random, length: usize) -> Vec<usize> {
    let most = *random.pick(&[1, 2, 9, 40, 700, 2 * PIECE]);
    let edges = [0, 1, PIECE - 1, PIECE, PIECE + 1, 2 * PIECE];
    let (mut pieces, mut left) = (Vec::new(), length);
    while left > 0 {
        let size = match random.chance(25) {
            true => *random.pick(&edges),
            false => random.below(most + 1),
        };
        pieces.push(size.min(left));
        left -= size.min(left).min(PIECE);
    }
    pieces
}
