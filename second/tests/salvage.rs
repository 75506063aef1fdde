//! Saving what can be saved: what is kept of a damaged table, and the lines that tell of the rest.


use crate::common::{changed, with};
use second::answer::LARGEST_TABLE;
use second::generator::raw::{self, Parts, FAN_F, TABLE_A};
use second::generator::{any, mixed, only_in_the_archive, targeted, valid, wrecked};
use second::random::Random;
use second::salvage::{Line, SALVAGE_LINES};
use second::{cleared, plain, salvage, Chip, Refusal, Saved, Settings, Verdict};

/// A change as its line has it: old offset, number, and whether it is left out or cleared.
type Told = (usize, u8, &'static str);

const OUT: &str = "left out";
const CLEARED: &str = "cleared";
/// What no table and no text has: in the buffers before the call.
const BEFORE: [u8; 2] = [0xA5, 0xC3];

/// What the call answers with so much room, and both buffers as it leaves them.
fn called(file: &[u8], chip: Chip, room: usize) -> (Result<Saved, Refusal>, Vec<u8>, Vec<u8>) {
    let mut out = vec![BEFORE[0]; room];
    let mut lines = Box::new([BEFORE[1]; SALVAGE_LINES]);
    let answer = salvage(file, chip, &mut out, &mut lines);
    (answer, out, lines.to_vec())
}

/// With this room the call gives this table and this text, and leaves the bytes behind them; or it refuses and leaves all.
#[track_caller]
fn gives(file: &[u8], chip: Chip, room: usize, wanted: Result<(&[u8], &[u8]), u8>) {
    let (answer, out, lines) = called(file, chip, room);
    let (front, text) = wanted.unwrap_or((&[], &[]));
    let saved = Saved {
        table: front.len(),
        lines: text.len(),
    };
    let number = |number| Refusal::at(number, 0);
    assert_eq!(answer, wanted.map(|_| saved).map_err(number), "{file:02X?}");
    assert_eq!(&out[..front.len()], front, "room {room}: {file:02X?}");
    assert!(out[front.len()..].iter().all(|&byte| byte == BEFORE[0]));
    assert_eq!(&lines[..text.len()], text, "room {room}: {file:02X?}");
    assert!(lines[text.len()..].iter().all(|&byte| byte == BEFORE[1]));
}

/// The same in every room that matters.
#[track_caller]
fn gives_in_all_rooms(file: &[u8], chip: Chip, table: &[u8], text: &[u8]) {
    for room in [table.len(), table.len() + 1, file.len(), LARGEST_TABLE] {
        let fits = room >= table.len();
        gives(file, chip, room, fits.then_some((table, text)).ok_or(16));
    }
    for room in [0, 15, table.len() - 1] {
        gives(file, chip, room, Err(16));
    }
}

fn text(lines: &[Line]) -> Vec<u8> {
    lines.iter().map(Line::to_string).collect::<String>().into()
}

/// On this chip the file comes to this table with these changes, by both forms.
#[track_caller]
fn saves_on(chip: Chip, file: &[u8], table: &[u8], told: &[Told]) {
    let line = |(place, number, words): &Told| format!("{place}\t{number}\t{words}\n");
    let wanted: String = told.iter().map(line).collect();
    gives_in_all_rooms(file, chip, table, wanted.as_bytes());
    let (plain, lines) = plain::salvage(file, chip).unwrap();
    assert_eq!(plain, table);
    assert_eq!(text(&lines), wanted.as_bytes());
}

#[track_caller]
fn saves(file: &[u8], table: &[u8], told: &[Told]) {
    for chip in Chip::BOTH {
        saves_on(chip, file, table, told);
    }
}

/// Of table A with these elements those at these places among them are left.
#[track_caller]
fn keeps(elements: &[Vec<u8>], kept: &[usize], told: &[Told]) {
    let left: Vec<Vec<u8>> = kept.iter().map(|&at| elements[at].clone()).collect();
    saves(&raw::table(elements), &raw::table(&left), told);
}

/// 24 at 0, in any room, by both forms.
#[track_caller]
fn lost_on(chip: Chip, file: &[u8]) {
    for room in [0, 16, LARGEST_TABLE] {
        gives(file, chip, room, Err(24));
    }
    assert_eq!(plain::salvage(file, chip), Err(Refusal::at(24, 0)));
}

#[track_caller]
fn lost(file: &[u8]) {
    for chip in Chip::BOTH {
        lost_on(chip, file);
    }
}

/// Both forms alike; what comes out is accepted, and comes out of itself again without a line.
#[track_caller]
fn agree(file: &[u8], chip: Chip) -> Option<Vec<Line>> {
    let plain = plain::salvage(file, chip);
    let Ok((table, lines)) = plain else {
        assert_eq!(plain, Err(Refusal::at(24, 0)));
        gives(file, chip, file.len(), Err(24));
        return None;
    };
    gives_in_all_rooms(file, chip, &table, &text(&lines));
    let verdict = second::check(&table, chip.into());
    assert!(matches!(verdict, Verdict::Accepted(_)), "{file:02X?}");
    gives(&table, chip, table.len(), Ok((&table, &[])));
    Some(lines)
}

fn zone() -> Vec<u8> {
    raw::zone(1, 0)
}

/// A lamp that is dark claims nothing.
fn dark() -> Vec<u8> {
    raw::led(1, [0xFF; 3])
}

#[test]
fn an_accepted_table_has_its_reserved_places_cleared_and_no_lines() {
    saves(&TABLE_A, &TABLE_A, &[]);
    saves(&changed(&[(12, 1), (15, 0xFF)]), &TABLE_A, &[]);
    let tainted = with(
        &[(8, 0xF0), (9, 0x41), (10, 0xA5)],
        raw::controller(1, 0, 0x40, &[1]),
    );
    let clean = raw::controller(1, 0, 0x40, &[1]);
    saves(
        &raw::table(&[tainted, zone()]),
        &raw::table(&[clean, zone()]),
        &[],
    );
    // All bytes of a zone and of a string are content.
    let content = with(&[(5, 9), (29, 0xEE)], zone());
    keeps(&[content, raw::text(3, b"ab")], &[0, 1], &[]);
}

/// What bytes 1-2 say is not looked at.
#[test]
fn the_length_is_set() {
    let good = raw::table(&[FAN_F.to_vec(), zone()]);
    for told in [[0, 0], [16, 0], [15, 0], [0xFF, 0xFF], [0, 0x10], [63, 0]] {
        saves(
            &with(&[(1, told[0]), (2, told[1])], good.clone()),
            &good,
            &[],
        );
    }
}

/// The bytes left behind the last whole element are no change.
#[test]
fn it_stops_where_the_reader_would_say_6() {
    let good = raw::table(&[zone()]);
    for left in [
        &[0x03][..],
        &[0x0C, 6],
        &[0x0C, 2, 0, 0],
        &[0x0C, 0, 0, 1, 9, 4],
        &[0x0C, 7, 0, 1, 9, 4],
        &[0x0F, 0xFF, 0xFF, 0],
        &[0xFF; 100],
        &[0x00; 100],
    ] {
        let mut file = good.clone();
        file.extend_from_slice(left);
        saves(&file, &good, &[]);
        raw::mend(&mut file);
        saves(&file, &good, &[]);
    }
    // Good elements behind it stay behind.
    let mut file = good.clone();
    file.extend([0x0C, 2, 0]);
    file.extend(raw::text(1, &[]));
    saves(&file, &good, &[]);
}

#[test]
fn the_first_4096_bytes() {
    // 16 + 51 x 80 = 4,096.
    let strings: Vec<Vec<u8>> = (1..=52).map(|n| raw::text(n, &[0x41; 74])).collect();
    let whole = raw::table(&strings[..51]);
    assert_eq!(whole.len(), 4_096);
    saves(&whole, &whole, &[]);
    saves(&raw::table(&strings), &whole, &[]);
    let mut longer = whole.clone();
    for behind in [1, 2, 3, 60_000, 65_536] {
        longer.resize(4_096 + behind, 0xFF);
        saves(&longer, &whole, &[]);
    }
    // One byte more before it, and the last one does not end in time.
    let across = [&[raw::element(0x0F, &[])][..], &strings[..51]].concat();
    saves(
        &raw::table(&across),
        &raw::table(&strings[..50]),
        &[(16, 7, OUT)],
    );
    // A header that ends there is still looked at, and one that would end a byte later is not.
    for (body, last) in [(74, Some((4_093, 7, OUT))), (75, None)] {
        let mut elements = strings[..50].to_vec();
        elements.push(raw::element(0x10, &vec![0; body]));
        elements.push(raw::element(0x10, &[]));
        let told: Vec<Told> = [(4_016, 7, OUT)].into_iter().chain(last).collect();
        saves(&raw::table(&elements), &raw::table(&strings[..50]), &told);
    }
}

/// Each number of the pass, the first that the reader would give.
#[test]
fn every_number_of_the_pass() {
    let lamp = raw::led(1, [0x14, 0xFF, 0xFF]);
    for (number, bad) in [
        (7, raw::element(0x00, &[])),
        (7, raw::element(0x0F, &[1, 2, 3])),
        (7, raw::element(0xFF, &[0; 200])),
        (8, raw::element(0x03, &[])),
        (8, raw::element(0x03, &FAN_F[3..15])),
        (8, raw::element(0x0B, &[1; 28])),
        (8, raw::element(0x0C, &[1, 9])),
        (9, with(&[(9, 0x61)], lamp.clone())),
        (9, raw::text(0, &[])),
        (9, raw::text(1, &[0x41])),
        (9, raw::digital(1, 4, 0x40)),
        (23, raw::digital(1, 2, 0x40)),
        (23, raw::digital(1, 0xF2, 0x40)),
        (10, raw::digital(1, 3, 0x00)),
        (10, raw::analogue(1, 0x10)),
        (10, raw::fan(1, 0x06, 0x05)),
        (10, with(&[(8, 0x10)], lamp.clone())),
        // Two that are broken: the first counts.
        (8, raw::element(0x01, &[0xFF; 17])),
        (9, raw::controller(1, 2, 0x40, &[0])),
        (23, with(&[(7, 9)], raw::controller(1, 2, 0x40, &[1]))),
    ] {
        keeps(
            &[bad.clone(), zone(), lamp.clone()],
            &[1, 2],
            &[(16, number, OUT)],
        );
        keeps(&[zone(), lamp.clone(), bad], &[0, 1], &[(60, number, OUT)]);
    }
}

#[test]
fn pins_by_the_chip() {
    let elements = [raw::analogue(1, 0x24), zone(), raw::analogue(1, 0x23)];
    let file = raw::table(&elements);
    saves_on(Chip::F320, &file, &file, &[]);
    saves_on(
        Chip::F321,
        &file,
        &raw::table(&elements[1..]),
        &[(16, 10, OUT)],
    );
    let strapped = changed(&[(9, 0x27)]);
    saves_on(Chip::F320, &strapped, &strapped, &[]);
    lost_on(Chip::F321, &strapped);
}

/// A 13th zone, and a number that is repeated: those left out do not count.
#[test]
fn zones_against_those_kept() {
    let twelve: Vec<Vec<u8>> = (1..=12).map(|n| raw::zone(n, 0)).collect();
    let all: Vec<usize> = (0..12).collect();
    let more = |more: &[Vec<u8>]| [&twelve[..], more].concat();
    keeps(&more(&[raw::zone(13, 0)]), &all, &[(376, 11, OUT)]);
    // 11 goes before 12.
    keeps(&more(&[raw::zone(3, 0)]), &all, &[(376, 11, OUT)]);
    let two = [raw::zone(13, 0), raw::zone(14, 0)];
    keeps(&more(&two), &all, &[(376, 11, OUT), (406, 11, OUT)]);
    // Of thirteen the second is the first again, and so the last is the twelfth.
    let again = [&twelve[..1], &twelve[..]].concat();
    let kept: Vec<usize> = [0].into_iter().chain(2..13).collect();
    keeps(&again, &kept, &[(46, 12, OUT)]);
    // One of a wrong length, and one that is none.
    let short = [&[raw::element(0x0B, &[1; 20])][..], &twelve[..]].concat();
    let kept: Vec<usize> = (1..13).collect();
    keeps(&short, &kept, &[(16, 8, OUT)]);
}

#[test]
fn numbers_against_those_kept() {
    let one = raw::text(1, b"ab");
    keeps(&[one.clone(), one.clone()], &[0], &[(24, 12, OUT)]);
    let other = raw::text(1, b"cd");
    keeps(
        &[one.clone(), other.clone(), raw::text(2, &[]), one.clone()],
        &[0, 2],
        &[(24, 12, OUT), (38, 12, OUT)],
    );
    // Text of an odd number of bytes is left out, and its number is free.
    keeps(
        &[raw::text(1, b"a"), other, one],
        &[1],
        &[(16, 9, OUT), (31, 12, OUT)],
    );
    // A zone and a string may have one number.
    keeps(&[zone(), raw::text(1, &[])], &[0, 1], &[]);
}

/// The last pin of the fan list is that of the last one kept.
#[test]
fn the_fan_list_against_those_kept() {
    let fan = |pin: u8| raw::fan(1, pin, 0xFF);
    keeps(
        &[zone(), fan(0x06), fan(0x05), fan(0x11)],
        &[0, 1, 3],
        &[(62, 10, OUT)],
    );
    keeps(&[zone(), fan(0x05), fan(0x05)], &[0, 1], &[(62, 10, OUT)]);
    // The second comes too early with its first pin, and its last pin does not count.
    let wide = raw::fan(1, 0x05, 0x13);
    keeps(
        &[zone(), fan(0x06), wide.clone(), fan(0x11)],
        &[0, 1, 3],
        &[(62, 10, OUT)],
    );
    // Left out for its codes, or for its own pins.
    let coded = with(&[(9, 0xFF)], wide);
    keeps(&[zone(), coded, fan(0x05)], &[0, 2], &[(46, 9, OUT)]);
    keeps(
        &[zone(), raw::fan(1, 0x13, 0x12), fan(0x05)],
        &[0, 2],
        &[(46, 10, OUT)],
    );
    let lights = raw::rgb(1, 0x05, 0x12, 0x11);
    keeps(
        &[zone(), lights, raw::pump(1, 0x06, 0x11)],
        &[0, 2],
        &[(46, 10, OUT)],
    );
    // One that falls later, by 13 or by 15, was kept then, and those that it has put out stay out.
    let elsewhere = raw::fan(2, 0x12, 0xFF);
    keeps(
        &[zone(), elsewhere.clone(), fan(0x05), fan(0x13)],
        &[0, 3],
        &[(62, 10, OUT), (46, 13, OUT)],
    );
    let mut strapped = Parts::of(&[zone(), raw::fan(1, 0x12, 0xFF), fan(0x05)]);
    strapped.description[10] = 0x12;
    let file = strapped.bytes();
    strapped.elements.truncate(1);
    saves(&file, &strapped.bytes(), &[(62, 10, OUT), (46, 15, OUT)]);
}

/// 96 are kept, and nothing behind them is looked at.
#[test]
fn ninety_six_are_kept() {
    let strings: Vec<Vec<u8>> = (1..=97).map(|n| raw::text(n, &[])).collect();
    let all: Vec<usize> = (0..96).collect();
    keeps(&strings[..96], &all, &[]);
    keeps(&strings, &all, &[]);
    let bad = raw::element(0x0F, &[]);
    keeps(
        &[&strings[..96], &[bad.clone(), zone()]].concat(),
        &all,
        &[],
    );
    // Before the 96th a line, and it does not count among them.
    let before = [&strings[..95], &[bad.clone()], &strings[95..]].concat();
    let kept: Vec<usize> = (0..95).chain([96]).collect();
    keeps(&before, &kept, &[(16 + 95 * 6, 7, OUT)]);
    let many = [&vec![bad.clone(); 200][..], &strings].concat();
    let kept: Vec<usize> = (200..296).collect();
    let told: Vec<Told> = (0..200).map(|at| (16 + 3 * at, 7, OUT)).collect();
    keeps(&many, &kept, &told);
    // Of 96 kept some fall later: the 97th does not come back.
    let lamps = [&strings[..90], &vec![dark(); 6][..], &[zone()]].concat();
    let kept: Vec<usize> = (0..90).collect();
    let told: Vec<Told> = (0..6).map(|at| (556 + 14 * at, 13, OUT)).collect();
    keeps(&lamps, &kept, &told);
}

/// 13, when the pass is over: descriptors may come later, and those left out declare nothing.
#[test]
fn undeclared_zones() {
    keeps(&[FAN_F.to_vec()], &[], &[(16, 13, OUT)]);
    keeps(&[FAN_F.to_vec(), zone()], &[0, 1], &[]);
    let short = raw::element(0x0B, &[1; 20]);
    keeps(
        &[short, FAN_F.to_vec()],
        &[],
        &[(16, 8, OUT), (39, 13, OUT)],
    );
    let zero = raw::led(0, [0xFF; 3]);
    keeps(&[zero.clone(), raw::zone(0, 0)], &[0, 1], &[]);
    keeps(&[zone(), zero], &[0], &[(46, 13, OUT)]);
    // All lines of the pass come first.
    keeps(
        &[FAN_F.to_vec(), raw::element(0x10, &[]), dark()],
        &[],
        &[(32, 7, OUT), (16, 13, OUT), (35, 13, OUT)],
    );
    // The 13th zone declares nothing either.
    let mut zones: Vec<Vec<u8>> = (2..=14).map(|n| raw::zone(n, 0)).collect();
    zones.push(raw::led(14, [0xFF; 3]));
    let kept: Vec<usize> = (0..12).collect();
    keeps(&zones, &kept, &[(376, 11, OUT), (406, 13, OUT)]);
}

/// 14: the description's index first, then elements and zones as they stand; nothing is left out for it.
#[test]
fn missing_strings() {
    saves(&changed(&[(4, 5)]), &TABLE_A, &[(0, 14, CLEARED)]);
    let named = |string: u8| with(&[(3, string)], dark());
    let file = Parts {
        description: changed(&[(4, 9)]).try_into().unwrap(),
        elements: vec![
            named(1),
            raw::zone(1, 2),
            raw::text(3, &[]),
            named(3),
            named(255),
        ],
    };
    let kept = [
        named(0),
        raw::zone(1, 0),
        raw::text(3, &[]),
        named(3),
        named(0),
    ];
    let told = [
        (0, 14, CLEARED),
        (16, 14, CLEARED),
        (30, 14, CLEARED),
        (80, 14, CLEARED),
    ];
    saves(&file.bytes(), &raw::table(&kept), &told);
    // A string that is left out names nothing; one that is repeated does.
    let odd = [raw::text(1, b"a"), named(1), zone()];
    saves(
        &raw::table(&odd),
        &raw::table(&[named(0), zone()]),
        &[(16, 9, OUT), (23, 14, CLEARED)],
    );
    keeps(
        &[raw::text(1, &[]), raw::text(1, &[]), named(1), zone()],
        &[0, 2, 3],
        &[(22, 12, OUT)],
    );
}

/// One that falls by 13 is not cleared; one that falls by 15 is cleared first.
#[test]
fn fourteen_stands_between() {
    let lost = with(&[(3, 7)], raw::led(2, [0xFF; 3]));
    keeps(&[lost, zone()], &[1], &[(16, 13, OUT)]);
    let clashing = with(&[(3, 7)], raw::led(1, [0x14, 0x14, 0xFF]));
    keeps(
        &[clashing, zone()],
        &[1],
        &[(16, 14, CLEARED), (16, 15, OUT)],
    );
    // All of 13, all of 14, all of 15.
    let analogue = with(&[(3, 7)], raw::analogue(1, 0x14));
    let file = [
        analogue.clone(),
        raw::analogue(1, 0x14),
        with(&[(3, 8)], dark()),
        zone(),
        raw::led(9, [0xFF; 3]),
    ];
    let kept = [raw::analogue(1, 0x14), dark(), zone()];
    saves(
        &raw::table(&file),
        &raw::table(&kept),
        &[
            (100, 13, OUT),
            (16, 14, CLEARED),
            (56, 14, CLEARED),
            (36, 15, OUT),
        ],
    );
}

/// 15 in the order of the claims: the later one falls, and what falls frees its pins.
#[test]
fn clashes() {
    let (one, two) = (raw::analogue(1, 0x14), raw::current(1, 0x14));
    keeps(
        &[one.clone(), two.clone(), zone()],
        &[0, 2],
        &[(36, 15, OUT)],
    );
    keeps(
        &[two.clone(), one.clone(), zone()],
        &[0, 2],
        &[(30, 15, OUT)],
    );
    // Its own earlier one; and the pin is free for the next.
    let lamp = raw::led(1, [0x14, 0xFF, 0x14]);
    keeps(&[lamp, one.clone(), zone()], &[1, 2], &[(16, 15, OUT)]);
    // The second falls for P1.5, so that P1.6 is free for the third.
    let lamps = |pins: [u8; 2]| raw::led(1, [pins[0], pins[1], 0xFF]);
    keeps(
        &[
            zone(),
            lamps([0x14, 0x15]),
            lamps([0x15, 0x16]),
            lamps([0x16, 0x17]),
        ],
        &[0, 1, 3],
        &[(60, 15, OUT)],
    );
    // A chip select on it falls, and with it its claim on the bus: P0.0 is free for a lamp.
    let device = raw::digital(1, 3, 0x14);
    keeps(
        &[zone(), one.clone(), device.clone(), lamps([0x00, 0xFF])],
        &[0, 1, 3],
        &[(66, 15, OUT)],
    );
    // One that has fallen by 13 holds no pin.
    keeps(
        &[raw::analogue(2, 0x14), two.clone(), zone()],
        &[1, 2],
        &[(16, 13, OUT)],
    );
    // One that the pass has left out holds none either.
    let coded = with(&[(11, 4)], one.clone());
    keeps(&[coded, two, zone()], &[1, 2], &[(16, 9, OUT)]);
}

#[test]
fn shared_pins_and_chip_selects() {
    let select = raw::tachometer(1, 3, 0x14, 0, 0);
    let bus = [raw::digital(1, 0, 0x40), raw::controller(1, 1, 0x40, &[1])];
    let spi = [raw::digital(1, 3, 0x14), select.clone()];
    let analogue = [raw::analogue(1, 0x15), raw::water(1, 0x16)];
    let all = [&bus[..], &spi, &analogue, &[zone()]].concat();
    keeps(&all, &[0, 1, 2, 3, 4, 5, 6], &[]);
    // A lamp on the bus: whichever comes later.
    let lamp = raw::led(1, [0x03, 0xFF, 0xFF]);
    keeps(
        &[lamp.clone(), bus[0].clone(), zone()],
        &[0, 2],
        &[(30, 15, OUT)],
    );
    keeps(&[bus[0].clone(), lamp, zone()], &[0, 2], &[(37, 15, OUT)]);
    // A fan on the chip select of another.
    let select = raw::tachometer(1, 3, 0x05, 0, 0);
    keeps(
        &[select, raw::fan(1, 0x05, 0xFF), zone()],
        &[0, 2],
        &[(30, 15, OUT)],
    );
}

/// The description's own pins hold against every element; the reference pin too.
#[test]
fn hardware_revision_pins() {
    let elements = [raw::analogue(1, 0x15), raw::fan(1, 0x05, 0xFF), zone()];
    for (pin, kept, told) in [
        (0x15, vec![1, 2], (16, 15, OUT)),
        (0x07, vec![1, 2], (16, 15, OUT)),
        (0x05, vec![0, 2], (36, 15, OUT)),
    ] {
        let mut parts = Parts::of(&elements);
        parts.description[10] = pin;
        let file = parts.bytes();
        parts.elements = kept.iter().map(|&at| elements[at].clone()).collect();
        saves(&file, &parts.bytes(), &[told]);
    }
}

#[test]
fn descriptions_that_cannot_be_saved() {
    for length in [0, 1, 3, 15] {
        lost(&TABLE_A[..length]);
    }
    for changes in [
        &[(0, 0x00)][..],
        &[(0, 0x02)],
        &[(0, 0x10)],
        &[(0, 0xFF)],
        &[(3, 0)],
        &[(3, 4)],
        &[(8, 0x7E)],
        &[(8, 0x7F)],
        &[(9, 0x08)],
        &[(10, 0x31)],
        &[(11, 0xFE)],
        // Clashes among the fault LED's claim and its own.
        &[(9, 0x10)],
        &[(11, 0x10)],
        &[(9, 0x05), (10, 0x05)],
        &[(9, 0x30), (11, 0x30)],
    ] {
        lost(&changed(changes));
        let mut longer = changed(changes);
        longer.extend(zone());
        lost(&longer);
    }
    lost(&[0xFF; 4_096]);
    lost(&[0x00; 4_096]);
    // A wrong length and a string that is not there are put right.
    saves(&changed(&[(1, 9), (4, 1)]), &TABLE_A, &[(0, 14, CLEARED)]);
    for good in [(8, 0x7D), (9, 0x11), (10, 0x30)] {
        saves(&changed(&[good]), &changed(&[good]), &[]);
    }
}

/// There is no archive here: block mode is left out.
#[test]
fn block_mode_is_left_out() {
    let mut random = Random::new(14);
    for chip in Chip::BOTH {
        for _ in 0..50 {
            let table = only_in_the_archive(&mut random, chip);
            let lines = agree(&table, chip).unwrap();
            assert!(lines.iter().any(|line| line.number == 23));
        }
    }
}

/// The most lines that a pass has, and the most from what it keeps.
#[test]
fn every_text_fits() {
    let mut file = TABLE_A.to_vec();
    file.extend([0x0F, 3, 0].repeat(1_360));
    let lines = agree(&file, Chip::F320).unwrap();
    assert_eq!(lines.len(), 1_360);
    let lamp = with(&[(3, 7)], raw::led(1, [0x14, 0x14, 0xFF]));
    let mut elements = vec![lamp; 95];
    elements.push(zone());
    let lines = agree(&raw::table(&elements), Chip::F320).unwrap();
    assert_eq!(lines.len(), 190);
}

/// Every table that is accepted comes out as it is rewritten.
#[test]
fn accepted_tables() {
    let mut random = Random::new(1);
    for at in 0..600 {
        let chip = Chip::BOTH[at % 2];
        let table = match at % 10 {
            0 => mixed(&mut random, chip.into()),
            _ => valid(&mut random, chip.into()),
        };
        gives_in_all_rooms(&table, chip, &cleared(&table), &[]);
    }
}

/// Both forms on every named case, on tables of every sort and on damaged files; every number and both words come.
#[test]
fn both_forms_agree() {
    let mut came = [0; 26];
    let mut note = |lines: Option<Vec<Line>>| {
        for line in lines.into_iter().flatten() {
            came[usize::from(line.number)] += 1;
        }
    };
    for (at, (_, table)) in targeted().iter().enumerate().step_by(3) {
        note(agree(table, Chip::BOTH[at / 3 % 2]));
    }
    let mut random = Random::new(1414);
    for at in 0..1_200 {
        let settings = Settings::ALL[at % 4];
        note(agree(&any(&mut random, settings), settings.chip));
        note(agree(&wrecked(&mut random, settings), settings.chip));
    }
    for number in [7, 8, 9, 10, 11, 12, 13, 14, 15, 23] {
        assert!(came[number] > 0, "{number} never came");
    }
}

/// Every byte of a table with all kinds altered to some others, one at a time.
#[test]
fn every_byte_altered() {
    let table = raw::table(&[
        raw::digital(1, 3, 0x14),
        raw::analogue(1, 0x15),
        raw::fan(1, 0x05, 0x06),
        raw::led(1, [0x16, 0x17, 0xFF]),
        raw::text(1, b"ab"),
        zone(),
        raw::external(1, 0, 0x40, [0, 1, 0]),
        raw::rgb(1, 0x11, 0x12, 0x13),
    ]);
    for at in 0..table.len() {
        for byte in [
            0,
            1,
            2,
            3,
            5,
            0x10,
            0x14,
            0x24,
            0xFF,
            table[at] ^ 1,
            table[at] ^ 0x80,
        ] {
            agree(&with(&[(at, byte)], table.clone()), Chip::BOTH[at % 2]);
        }
    }
}
