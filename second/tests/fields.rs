//! The numbers of a table in 32 bytes, and the places of parts and texts: hand-made tables, every field
//! another number.


use crate::common::{changed, with, zoned, ON_320, ON_321};
use second::generator::raw::{self, Parts};
use second::generator::{any, targeted};
use second::numbers::Numbers;
use second::random::Random;
use second::{describe, fields, part_place, text_place, Refusal, Settings};

/// What stands in the numbers before a call.
const JUNK: Numbers = [0xA5; 32];

/// These bytes, and zeros behind them.
fn numbers(first: &[u8]) -> Numbers {
    let mut all = [0; 32];
    all[..first.len()].copy_from_slice(first);
    all
}

/// A table of these elements with zone 7 and strings 8 and 9 behind them.
fn named(elements: &[&[u8]]) -> Vec<u8> {
    let mut all: Vec<Vec<u8>> = elements.iter().map(|bytes| bytes.to_vec()).collect();
    all.extend([raw::zone(7, 9), raw::text(8, b"eighth"), raw::text(9, b"")]);
    raw::table(&all)
}

#[track_caller]
fn gives(element: &[u8], wanted: &[u8]) {
    let mut found = JUNK;
    assert_eq!(
        fields(&named(&[element]), 0, ON_320, &mut found),
        Ok(element[0])
    );
    assert_eq!(found, numbers(wanted));
}

#[test]
fn of_the_description() {
    let mut parts = Parts::of(&[raw::text(0x44, b"")]);
    parts.description = [
        0x01, 0, 0, 3, 0x44, 0x51, 0x52, 0x53, 0x7D, 0x30, 0xFF, 0x07, 0xFF, 0xFE, 0xFD, 0xFC,
    ];
    let mut found = JUNK;
    assert_eq!(describe(&parts.bytes(), ON_320, &mut found), Ok(()));
    let wanted = [3, 0x44, 0x51, 0x52, 0x53, 0, 0, 0x7D, 0x30, 0xFF, 0x07];
    assert_eq!(found, numbers(&wanted));
    // SPWR is 1, and the power units stand beside it.
    parts.description[8] = 0xFE;
    assert_eq!(describe(&parts.bytes(), ON_320, &mut found), Ok(()));
    assert_eq!(found[6..8], [1, 0x7E]);
    assert_eq!(describe(&changed(&[(8, 0x80)]), ON_320, &mut found), Ok(()));
    assert_eq!(found, numbers(&[2, 0, 7, 0, 0, 0, 1, 0, 0xFF, 0xFF, 0xFF]));
}

#[test]
fn of_a_digital_sensor() {
    let bus = [
        1, 21, 0, 8, 0x14, 0x15, 0x16, 7, 0xA1, 0x9B, 0xEE, 0x21, 0x22, 0x23, 0x24, 0x25, 0x26,
        0x27, 0x28, 0x29, 0x2A,
    ];
    // Bits 7-4 of byte 8, bit 0 of byte 9 and byte 10 are reserved.
    let wanted = [
        8, 0x14, 0x15, 0x16, 7, 1, 0, 0x4D, 0x21, 0x22, 0x23, 0x24, 0x25, 0x26, 0x27, 0x28, 0x29,
        0x2A,
    ];
    gives(&bus, &wanted);
    let select = with(&[(8, 0xF3), (9, 0x15)], bus.to_vec());
    let wanted = with(&[(5, 3), (6, 1), (7, 0x15)], wanted.to_vec());
    gives(&select, &wanted);
}

#[test]
fn of_an_analogue_sensor() {
    let element = [
        2, 20, 0, 9, 0xFF, 0xFF, 0xFE, 7, 0xF1, 0x26, 0x11, 1, 0x22, 2, 0x33, 3, 0x44, 0, 0x55, 1,
    ];
    let wanted = [
        9, 0xFF, 0xFF, 0xFE, 7, 1, 0x26, 0x11, 1, 0x22, 2, 0x33, 3, 0x44, 0, 0x55, 1,
    ];
    gives(&element, &wanted);
}

#[test]
fn of_a_fan() {
    let element = [
        3, 16, 0, 0, 1, 2, 3, 7, 0x06, 0x12, 4, 0x31, 0x32, 0x33, 0x34, 0x35,
    ];
    let wanted = [0, 1, 2, 3, 7, 6, 0x12, 4, 0x31, 0x32, 0x33, 0x34, 0x35];
    gives(&element, &wanted);
    let alone = with(&[(9, 0xFF), (10, 0)], element.to_vec());
    gives(&alone, &with(&[(6, 0xFF), (7, 0)], wanted.to_vec()));
}

#[test]
fn of_a_status_led() {
    let element = [4, 14, 0, 8, 1, 2, 3, 7, 0x14, 0x52, 0xFF, 0xE9, 0x03, 0x14];
    let wanted = [8, 1, 2, 3, 7, 0x14, 5, 2, 0xFF, 0xE, 9, 0x03, 1, 4];
    gives(&element, &wanted);
}

#[test]
fn of_a_current_sensor() {
    let element = [8, 14, 0, 8, 1, 2, 3, 7, 0x30, 0xFF, 0x61, 0x62, 0x63, 0x64];
    gives(&element, &[8, 1, 2, 3, 7, 0x30, 0x61, 0x62, 0x63, 0x64]);
}

#[test]
fn of_an_rgb_led() {
    let element = [0x0E, 11, 0, 8, 1, 2, 3, 7, 0x05, 0x11, 0x13];
    gives(&element, &[8, 1, 2, 3, 7, 0x05, 0x11, 0x13]);
}

#[test]
fn of_controllers_and_tachometers() {
    let controller = [9, 17, 0, 8, 1, 2, 3, 7, 0x51, 0xFF, 0xFF, 6, 1, 2, 3, 4, 5];
    gives(&controller, &[8, 1, 2, 3, 7, 1, 0, 0x7F]);
    let tachometer = [
        0x0A, 18, 0, 9, 1, 2, 3, 7, 0x93, 0x11, 0xEE, 0xDD, 0, 1, 0xA, 0xB, 0xC, 0xD,
    ];
    gives(&tachometer, &[9, 1, 2, 3, 7, 3, 1, 0x11]);
}

#[test]
fn of_a_water_level() {
    let element = [5, 15, 0, 8, 1, 2, 3, 7, 0x16, 0x11, 1, 0x22, 2, 0xFF, 3];
    let wanted = [8, 1, 2, 3, 7, 0x16, 0x11, 1, 0x22, 2, 0xFF, 3];
    gives(&element, &wanted);
}

#[test]
fn of_a_pump() {
    let element = [
        6, 16, 0, 9, 1, 2, 3, 7, 0x06, 0x12, 4, 0x31, 0x32, 0x33, 0x34, 0x35,
    ];
    let wanted = [9, 1, 2, 3, 7, 6, 0x12, 4, 0x31, 0x32, 0x33, 0x34, 0x35];
    gives(&element, &wanted);
    let alone = with(&[(9, 0xFF), (10, 0)], element.to_vec());
    gives(&alone, &with(&[(6, 0xFF), (7, 0)], wanted.to_vec()));
}

/// VMAX before VMIN.
#[test]
fn of_a_voltage() {
    let element = [7, 11, 0, 8, 1, 2, 3, 7, 0x30, 140, 20];
    gives(&element, &[8, 1, 2, 3, 7, 0x30, 140, 20]);
}

#[test]
fn of_an_external_rgb_led() {
    let element = [
        0x0D, 19, 0, 9, 1, 2, 3, 7, 0x91, 0x9B, 0xEE, 3, 0, 1, 0xA, 0xB, 0xC, 0xD, 0,
    ];
    gives(&element, &[9, 1, 2, 3, 7, 1, 0, 0x4D, 3]);
    let select = with(&[(8, 0xF3), (9, 0x15), (11, 1)], element.to_vec());
    gives(&select, &[9, 1, 2, 3, 7, 3, 1, 0x15, 1]);
}

#[test]
fn of_zones_and_strings() {
    let mut zone = raw::zone(5, 8);
    zone[5..].fill(0xCC);
    gives(&zone, &[5, 8]);
    gives(&[0x0C, 8, 0, 6, 0xBB, 0xAA, b'x', b'y'], &[6]);
    gives(&[0x0C, 6, 0, 6, 0xBB, 0xAA], &[6]);
}

/// Place and length of each part, and of each text.
#[test]
fn parts_and_texts() {
    let table = named(&[
        &raw::digital(7, 0, 0x40),
        &raw::analogue(7, 0x20),
        &raw::fan(7, 5, 6),
        &raw::led(7, [0xFF; 3]),
        &raw::current(7, 0x21),
        &raw::controller(7, 0, 0x40, &[1, 2]),
        &raw::tachometer(7, 0, 0x40, 0, 1),
        &raw::rgb(7, 0x11, 0x12, 0x13),
        &raw::external(7, 0, 0x40, [1, 0, 2]),
    ]);
    let wanted = [
        (37, 37),   // 16 + 21
        (57, 57),   // 37 + 20
        (73, 73),   // 57 + 16
        (87, 87),   // 73 + 14
        (101, 101), // 87 + 14
        (112, 128), // from byte 11 on: blocks of 6 and of 10
        (140, 146), // from byte 12 on: blocks of 1 and of 5
        (157, 157), // 146 + 11
        (169, 184), // from byte 12 on: blocks of 5, of 1 and of 9
        (187, 214), // 27 bytes of a zone
        (217, 226), // 3 and six of text
        (229, 232), // 3 and no text
    ];
    for (k, (from, to)) in wanted.into_iter().enumerate() {
        assert_eq!(part_place(&table, k, ON_320), Ok(from..to), "{k}");
        let text = match k {
            10 => Some(220..226),
            11 => Some(232..232),
            _ => None,
        };
        assert_eq!(text_place(&table, k, ON_320), Ok(text), "{k}");
    }
    assert_eq!(&table[220..226], b"eighth");
}

#[track_caller]
fn refused(table: &[u8], k: usize, refusal: Refusal) {
    let mut found = JUNK;
    assert_eq!(fields(table, k, ON_320, &mut found), Err(refusal));
    assert_eq!(found, JUNK);
    assert_eq!(part_place(table, k, ON_320), Err(refusal));
    assert_eq!(text_place(table, k, ON_320), Err(refusal));
}

#[test]
fn refusals_alter_nothing() {
    let table = named(&[&raw::fan(7, 5, 6)]);
    for k in [4, 5, 96, 260, 65_536, usize::MAX] {
        refused(&table, k, Refusal::at(17, 0));
    }
    refused(&raw::TABLE_A, 0, Refusal::at(17, 0));
    let no_zone = raw::table(&[raw::fan(7, 5, 6)]);
    for k in [0, 1, usize::MAX] {
        refused(&no_zone, k, Refusal::at(13, 16));
    }
    let mut found = JUNK;
    assert_eq!(
        describe(&no_zone, ON_320, &mut found),
        Err(Refusal::at(13, 16))
    );
    assert_eq!(describe(&[], ON_320, &mut found), Err(Refusal::at(1, 0)));
    assert_eq!(found, JUNK);
}

/// Whatever the table: answers and bytes are those that the other calls give.
#[test]
fn as_the_other_calls() {
    let mut random = Random::new(41);
    let generated: Vec<Vec<u8>> = (0..3_000)
        .map(|at| any(&mut random, Settings::ALL[at % 4]))
        .collect();
    let named = targeted().iter().map(|(_, table)| table);
    let tables = generated.iter().chain(named).enumerate();
    for (at, table) in tables {
        let settings = Settings::ALL[at / 2 % 4];
        let mut found = JUNK;
        let described = describe(table, settings, &mut found);
        assert_eq!(described.err(), second::description(table, settings).err());
        let count = second::check(table, settings).beside().min(96);
        for k in 0..=count {
            found = JUNK;
            let element = second::element(table, k, settings);
            let identifier = element.map(|record| record.identifier());
            assert_eq!(fields(table, k, settings, &mut found), identifier);
            let part = part_place(table, k, settings).map_or(&[][..], |place| &table[place]);
            assert_eq!(part, second::part(table, k, settings));
        }
    }
}

/// Byte 31 names the chip of every record whose kind has a pin place, used or not.
#[test]
fn of_the_chip() {
    let mut found = JUNK;
    let table = zoned(&[
        raw::digital(1, 0, 0x40),
        raw::digital(1, 3, 0x14),
        raw::analogue(1, 0x20),
        raw::fan(1, 5, 0xFF),
        raw::pump(1, 6, 0xFF),
        raw::led(1, [0xFF; 3]),
        raw::current(1, 0x21),
        raw::controller(1, 1, 0x40, &[1]),
        raw::tachometer(1, 3, 0x14, 0, 0),
        raw::rgb(1, 0x11, 0x12, 0x13),
        raw::text(1, b"xy"),
        raw::water(1, 0x15),
        raw::voltage(1, 0x16),
        raw::external(1, 0, 0x40, [0; 3]),
    ]);
    for (settings, chip) in [(ON_320, 0), (ON_321, 1)] {
        assert_eq!(describe(&table, settings, &mut found), Ok(()));
        assert_eq!(found[31], chip);
        for k in 0..=14 {
            let identifier = fields(&table, k, settings, &mut found).unwrap();
            let pinless = matches!(identifier, 0x0B | 0x0C);
            assert_eq!(found[31], if pinless { 0 } else { chip }, "{k}");
        }
    }
    // All other bytes are the same on both chips.
    let mut other = JUNK;
    for k in 0..=14 {
        fields(&table, k, ON_320, &mut found).unwrap();
        fields(&table, k, ON_321, &mut other).unwrap();
        assert_eq!(found[..31], other[..31]);
    }
}

#[test]
fn a_table_for_the_320_only_alters_nothing_on_the_321() {
    let table = zoned(&[raw::led(1, [0xFF, 0x26, 0xFF])]);
    let mut found = JUNK;
    let refusal = Refusal::at(10, 46);
    assert_eq!(describe(&table, ON_321, &mut found), Err(refusal));
    assert_eq!(fields(&table, 0, ON_321, &mut found), Err(refusal));
    assert_eq!(part_place(&table, 0, ON_321), Err(refusal));
    assert_eq!(text_place(&table, 0, ON_321), Err(refusal));
    assert_eq!(found, JUNK);
    assert_eq!(fields(&table, 1, ON_320, &mut found), Ok(0x04));
}
