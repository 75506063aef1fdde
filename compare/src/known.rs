//! 'Known tables' of document 01, with the answers that stand there and, for two fans, in document 02. The bytes are written out here
//! and not taken from the second program. No pin of theirs is one of the four and no bus is in block mode, so
//! that the answers are the same with all settings; rows with either come in addition.

use crate::answer::Answer;
use crate::call::Call;
use second::{Chip, Rules, Settings};

pub struct Row {
    pub name: &'static str,
    pub settings: Settings,
    pub table: Vec<u8>,
    pub call: Call,
    pub answer: Answer,
}

const A: [u8; 16] = [
    0x01, 0x10, 0x00, 0x02, 0x00, 0x07, 0x00, 0x00, 0x80, 0xFF, 0xFF, 0xFF, 0x00, 0x00, 0x00, 0x00,
];
/// PWM stands at 8, the tachometer at 9.
pub const F: [u8; 16] = [
    0x03, 0x10, 0x00, 0x00, 0xFF, 0xFF, 0xFF, 0x01, 0x05, 0x06, 0x02, 0x2C, 0x01, 0xDC, 0x05, 0x40,
];
/// ENTRIES stands at 12.
pub const C: [u8; 17] = [
    0x09, 0x11, 0x00, 0x00, 0xFF, 0xFF, 0xFF, 0x01, 0x00, 0x40, 0x00, 0x05, 0x01, 0x07, 0x00, 0x0C,
    0x00,
];
/// Descriptor of zone 1 (000, Table 30), without a string; the rest is content.
pub const ZONE_1: [u8; 30] = {
    let mut zone = [0; 30];
    zone[0] = 0x0B;
    zone[1] = 30;
    zone[3] = 1;
    zone
};

/// A with one byte changed.
fn a(at: usize, byte: u8) -> Vec<u8> {
    changed(&A, &[(at, byte)])
}

pub fn changed(bytes: &[u8], changes: &[(usize, u8)]) -> Vec<u8> {
    let mut bytes = bytes.to_vec();
    for &(at, byte) in changes {
        bytes[at] = byte;
    }
    bytes
}

/// A with its length mended and these bytes added.
pub fn with(elements: &[&[u8]]) -> Vec<u8> {
    let mut table = [&A[..], &elements.concat()].concat();
    table[1] = table.len() as u8;
    table
}

fn row(name: &'static str, table: Vec<u8>, number: u8, beside: usize) -> Row {
    asked(name, table, Call::Check, number, beside)
}

fn asked(name: &'static str, table: Vec<u8>, call: Call, number: u8, beside: usize) -> Row {
    let answer = Answer::of(number, beside);
    Row {
        name,
        settings: Settings::default(),
        table,
        call,
        answer,
    }
}

fn on(settings: impl Into<Settings>, row: Row) -> Row {
    let settings = settings.into();
    Row { settings, ..row }
}

pub fn rows() -> Vec<Row> {
    let mut rows = four_pins();
    rows.extend(Chip::BOTH.into_iter().flat_map(block_mode));
    for settings in Settings::ALL {
        let lists = [
            descriptions(),
            elements(),
            elements_asked_for(),
            water_kits(),
        ];
        rows.extend(lists.into_iter().flatten().map(|row| on(settings, row)));
    }
    rows
}

/// Not rows of the list itself: bus type 2 is 23 directly after 9, and what it was in the archive (02, 12/14).
fn block_mode(chip: Chip) -> Vec<Row> {
    let [strict, old] = Rules::BOTH.map(|rules| Settings::new(chip, rules));
    let bus = |byte: u8| changed(&C, &[(8, byte)]);
    let empty = changed(&C, &[(8, 2), (12, 0)]);
    let whole = |byte: u8| with(&[&bus(byte), &ZONE_1]);
    vec![
        on(strict, row("A, C in block mode", with(&[&bus(2)]), 23, 16)),
        on(old, row("A, C in block mode", with(&[&bus(2)]), 13, 16)),
        on(strict, row("A, C with F2h, zone 1", whole(0xF2), 23, 16)),
        on(old, row("A, C with F2h, zone 1", whole(0xF2), 0, 2)),
        on(
            strict,
            row("A, C, ENTRIES 0 in block mode", with(&[&empty]), 9, 16),
        ),
        on(
            old,
            row("A, C, ENTRIES 0 in block mode", with(&[&empty]), 9, 16),
        ),
        on(strict, row("A, C with F1h, zone 1", whole(0xF1), 0, 2)),
        on(old, row("A, C with F1h, zone 1", whole(0xF1), 0, 2)),
    ]
}

/// Not rows of the list itself: P2.4 to P2.7 are on the 320 alone (000, Annex A, note 3), P2.3 and P3.0 on both.
fn four_pins() -> Vec<Row> {
    let lit = |pin: u8| {
        let lamp = [
            0x04, 14, 0, 0, 0xFF, 0xFF, 0xFF, 1, pin, 0x11, 0xFF, 0, 0xFF, 0,
        ];
        with(&[&lamp, &ZONE_1])
    };
    let alone = |name, table: Vec<u8>, refusal: usize, good: usize| {
        let refused = on(Chip::F321, row(name, table.clone(), 10, refusal));
        [row(name, table, 0, good), refused]
    };
    let mut rows = vec![
        on(Chip::F321, row("A, byte 9 23h", a(9, 0x23), 0, 0)),
        on(Chip::F321, row("A, LED on P2.3", lit(0x23), 0, 2)),
        on(Chip::F321, row("A, LED on P3.0", lit(0x30), 0, 2)),
    ];
    rows.extend(alone("A, byte 9 24h", a(9, 0x24), 0, 0));
    rows.extend(alone("A, byte 11 27h", a(11, 0x27), 0, 0));
    rows.extend(alone("A, LED on P2.4", lit(0x24), 16, 2));
    rows.extend(alone("A, LED on P2.7", lit(0x27), 16, 2));
    rows
}

/// Not rows of the list itself: the four kinds of 02, 1/14, by 000's Tables 18, 19, 27 and 28.
fn water_kits() -> Vec<Row> {
    let level = |at: usize, high: u8| {
        let good = [
            0x05, 15, 0, 0, 0xFF, 0xFF, 0xFF, 1, 0x14, 0xFF, 3, 0, 0, 0x40, 1,
        ];
        with(&[&changed(&good, &[(at, high)]), &ZONE_1])
    };
    let pump = |tachometer: u8| {
        let bytes = changed(&F, &[(0, 0x06), (9, tachometer)]);
        with(&[&bytes, &ZONE_1])
    };
    let volts = |length: u8| {
        let bytes = [0x07, length, 0, 0, 0xFF, 0xFF, 0xFF, 1, 0x14, 140, 0, 0];
        with(&[&bytes[..usize::from(length)], &ZONE_1])
    };
    let external = |chip: u8, entries: u8| {
        let bytes = [
            0x0D, 19, 0, 0, 0xFF, 0xFF, 0xFF, 1, 0, 0x40, 0, chip, 0, entries, 7, 0, 1, 0, 0,
        ];
        with(&[&bytes, &ZONE_1])
    };
    vec![
        row("water level, FULL 1023", level(10, 3), 0, 2),
        row("water level, FULL 1279", level(10, 4), 9, 16),
        row("water level, WARNING 1088", level(14, 4), 9, 16),
        row("pump", pump(0x06), 0, 2),
        row("pump, PPR without tachometer", pump(0xFF), 9, 16),
        row("pump, one pin twice", pump(0x05), 10, 16),
        row("14 volts", volts(11), 0, 2),
        row("volts in 10 bytes", volts(10), 8, 16),
        row("volts in 12 bytes", volts(12), 8, 16),
        row("external RGB, chip 1", external(1, 1), 0, 2),
        row("external RGB, chip 3", external(3, 1), 0, 2),
        row("external RGB, chip 0", external(0, 1), 9, 16),
        row("external RGB, chip 4", external(4, 1), 9, 16),
        row("external RGB, ENTRIES 2 of 1", external(1, 2), 8, 16),
    ]
}

fn descriptions() -> Vec<Row> {
    vec![
        row("A", A.to_vec(), 0, 0),
        row("A without its last byte", A[..15].to_vec(), 1, 0),
        row("empty", Vec::new(), 1, 0),
        row("A, byte 0 10h", a(0, 0x10), 2, 0),
        row("A, length 17", a(1, 17), 3, 0),
        row("A, byte 8 7Dh", a(8, 0x7D), 0, 0),
        row("A, byte 8 7Eh", a(8, 0x7E), 5, 0),
        row("A, byte 9 30h", a(9, 0x30), 0, 0),
        row("A, byte 9 31h", a(9, 0x31), 10, 0),
        row("A, byte 9 10h", a(9, 0x10), 15, 0),
    ]
}

fn elements() -> Vec<Row> {
    let no_tachometer = changed(&F, &[(9, 0xFF)]);
    let falling = changed(&F, &[(8, 0x06), (9, 0x05)]);
    let cut = changed(&F[..15], &[(1, 15)]);
    let two_entries = changed(&C, &[(12, 2)]);
    let no_entries = changed(&C, &[(12, 0)]);
    vec![
        row("A and two bytes", with(&[&[0x03, 0x10]]), 6, 16),
        row("A, F", with(&[&F]), 13, 16),
        row("A, F with tachometer FFh", with(&[&no_tachometer]), 9, 16),
        row(
            "A, F with PWM 06h, tachometer 05h",
            with(&[&falling]),
            10,
            16,
        ),
        row("A, F cut to 15, its length 15", with(&[&cut]), 8, 16),
        row("A, C", with(&[&C]), 13, 16),
        row("A, C with ENTRIES 2", with(&[&two_entries]), 8, 16),
        row("A, C with ENTRIES 0", with(&[&no_entries]), 9, 16),
        row("A, F, zone 1", with(&[&F, &ZONE_1]), 0, 2),
        row("A, F, F, zone 1", with(&[&F, &F, &ZONE_1]), 10, 32),
        row("A, F, F", with(&[&F, &F]), 10, 32),
    ]
}

/// Not rows of the list itself: what the same document's words on element k say of three of them.
fn elements_asked_for() -> Vec<Row> {
    let fan = || with(&[&F, &ZONE_1]);
    let controller = || with(&[&C, &ZONE_1]);
    let refused = || with(&[&F]);
    vec![
        asked("A", A.to_vec(), Call::Element(0), 17, 0),
        asked("A", A.to_vec(), Call::Part(0), 0, 0),
        asked("A, F, zone 1", fan(), Call::Element(0), 0, 0x03),
        asked("A, F, zone 1", fan(), Call::Part(0), 0, 0),
        asked("A, F, zone 1", fan(), Call::Element(1), 0, 0x0B),
        asked("A, F, zone 1", fan(), Call::Part(1), 0, 27),
        asked("A, F, zone 1", fan(), Call::Element(2), 17, 0),
        asked("A, C, zone 1", controller(), Call::Part(0), 0, 6),
        asked("A, F", refused(), Call::Element(0), 13, 16),
        asked("A, F", refused(), Call::Part(7), 0, 0),
    ]
}

#[cfg(test)]
mod tests {
    use crate::settings::reading;

    /// Needs no driver: the second program alone is held to the paper.
    #[test]
    fn the_second_program_gives_the_papers_answers() {
        for row in super::rows() {
            let (name, settings, call) = (row.name, row.settings, row.call);
            let second = call.second(&row.table, reading(settings, 0)).answer;
            assert_eq!(second, row.answer, "{name}: {call}, {settings}");
        }
    }
}
