//! Is there a fan in this zone? 'Yes' or 'no', and the number of elements that were walked to find out.


use crate::common::{with, zoned, ARCHIVE, ON_320, ON_321};
use second::generator::raw::{self, TABLE_A};
use second::generator::{any, mixed_of, targeted, valid};
use second::random::Random;
use second::{fan, plain, Accepted, Refusal, Settings, Verdict, Walked};

fn yes(visited: usize) -> Walked {
    let met = true;
    Walked { met, visited }
}

fn no(visited: usize) -> Walked {
    let met = false;
    Walked { met, visited }
}

/// Every form answers so, with all settings.
#[track_caller]
fn gives(table: &[u8], zone: u8, wanted: Walked) {
    for settings in Settings::ALL {
        assert_eq!(fan(table, zone, settings), Ok(wanted), "zone {zone}");
        assert_eq!(plain::fan(table, zone, settings), Ok(wanted));
        let accepted = Accepted::checked(table, settings).unwrap();
        assert_eq!(accepted.fan(zone), wanted);
    }
}

#[track_caller]
fn refuses(table: &[u8], settings: Settings, number: u8, place: usize) {
    let refusal = Refusal::at(number, place);
    for zone in [0, 1, 2, 255] {
        assert_eq!(fan(table, zone, settings), Err(refusal), "zone {zone}");
        assert_eq!(plain::fan(table, zone, settings), Err(refusal));
    }
    assert_eq!(Accepted::checked(table, settings).err(), Some(refusal));
}

#[test]
fn no_element_at_all() {
    for zone in 0..=255 {
        gives(&TABLE_A, zone, no(0));
    }
}

/// The fan is element 0 of one table and the last of another.
#[test]
fn position_plus_one() {
    let first = raw::table(&[raw::FAN_F.to_vec(), raw::zone(1, 0)]);
    gives(&first, 1, yes(1));
    let last = zoned(&[raw::led(1, [0xFF; 3]), raw::FAN_F.to_vec()]);
    gives(&last, 1, yes(3));
    for zone in [0, 2, 3, 254, 255] {
        gives(&first, zone, no(2));
        gives(&last, zone, no(3));
    }
}

/// Each of 96 places, among LEDs of the same zone.
#[test]
fn every_place_of_a_full_table() {
    for place in 1..96 {
        let mut elements = vec![raw::led(1, [0xFF; 3]); 96];
        elements[0] = raw::zone(1, 0);
        elements[place] = raw::fan(1, 0x05, 0x06);
        gives(&raw::table(&elements), 1, yes(place + 1));
        elements[place] = raw::led(1, [0xFF; 3]);
        gives(&raw::table(&elements), 1, no(96));
    }
}

#[test]
fn the_first_of_several() {
    let table = raw::table(&[
        raw::zone(2, 0),
        raw::fan(1, 0x05, 0xFF),
        raw::fan(2, 0x06, 0xFF),
        raw::zone(1, 0),
        raw::pump(2, 0x11, 0xFF),
        raw::pump(1, 0x12, 0xFF),
        raw::pump(3, 0x13, 0xFF),
        raw::zone(3, 0),
    ]);
    gives(&table, 1, yes(2));
    gives(&table, 2, yes(3));
    gives(&table, 3, yes(7));
    gives(&table, 4, no(8));
}

/// A pump counts as a fan does, before one, behind one and alone.
#[test]
fn pumps() {
    let alone = zoned(&[raw::pump(1, 0x05, 0x06)]);
    gives(&alone, 1, yes(2));
    let before = zoned(&[raw::pump(1, 0x05, 0x06), raw::fan(1, 0x11, 0x12)]);
    gives(&before, 1, yes(2));
    let behind = zoned(&[raw::fan(1, 0x05, 0x06), raw::pump(1, 0x11, 0x12)]);
    gives(&behind, 1, yes(2));
}

/// No other kind is a fan: not the external controller, nor its tachometer, nor an RGB LED on fan-list pins.
#[test]
fn every_other_kind_of_the_zone() {
    let table = zoned(&[
        raw::digital(1, 0, 0x40),
        raw::analogue(1, 0x14),
        raw::led(1, [0x15, 0xFF, 0xFF]),
        raw::water(1, 0x16),
        raw::voltage(1, 0x17),
        raw::current(1, 0x20),
        raw::controller(1, 0, 0x40, &[1]),
        raw::tachometer(1, 0, 0x40, 1, 1),
        raw::external(1, 0, 0x40, [1, 1, 1]),
        raw::rgb(1, 0x05, 0x06, 0x11),
        raw::text(1, &[1; 64]),
    ]);
    for zone in 0..=255 {
        gives(&table, zone, no(12));
    }
}

/// Identifiers that stand inside an element begin none, and the zone stands in byte 7 alone.
#[test]
fn the_zone_of_a_fan_is_its_byte_7() {
    let all: Vec<(usize, u8)> = (3..7).map(|at| (at, 9)).collect();
    let fan = with(&all, raw::fan(1, 0x05, 0xFF));
    let table = zoned(&[fan, raw::text(9, b"\x03\x10\x00\x09")]);
    gives(&table, 1, yes(2));
    gives(&table, 9, no(3));
}

/// Byte 7 of a zone descriptor is content.
#[test]
fn byte_7_of_a_zone_descriptor() {
    for content in [0, 1, 2, 3, 6, 255] {
        let mut zone = with(&[(7, content)], raw::zone(1, 0));
        let table = raw::table(&[zone.clone()]);
        gives(&table, content, no(1));
        zone[3] = content;
        gives(&raw::table(&[zone]), content, no(1));
    }
    let table = raw::table(&[
        with(&[(7, 2)], raw::zone(1, 0)),
        raw::zone(2, 0),
        raw::fan(2, 0x05, 0xFF),
    ]);
    gives(&table, 2, yes(3));
    gives(&table, 1, no(3));
}

/// Byte 7 of a string is text, and a short one has none: the next byte but one is of the element behind it.
#[test]
fn byte_7_of_a_string() {
    for content in [0, 1, 2, 3, 6, 0xD7, 0xFF] {
        let text = raw::text(1, &[0x41, content]);
        gives(&raw::table(&[text]), content, no(1));
    }
    let empty = raw::text(1, b"");
    for zone in 0..=255 {
        gives(&raw::table(&[empty.clone()]), zone, no(1));
    }
    // Behind the empty string byte 7 is the low length byte of what follows: 30 of a zone, 16 of a fan.
    let table = raw::table(&[empty, raw::zone(30, 0), raw::fan(30, 0x05, 0xFF)]);
    gives(&table, 30, yes(3));
    let fan = raw::fan(16, 0x05, 0xFF);
    let table = raw::table(&[raw::text(1, b""), fan, raw::zone(16, 0)]);
    gives(&table, 16, yes(2));
}

/// A zone that nobody declares: no, after all elements. One that is declared and has no fan: the same.
#[test]
fn undeclared_and_empty_zones() {
    let table = raw::table(&[
        raw::zone(7, 0),
        raw::zone(0, 0),
        raw::led(7, [0xFF; 3]),
        raw::fan(0, 0x05, 0x06),
        raw::zone(255, 0),
    ]);
    for zone in 1..=255 {
        gives(&table, zone, no(5));
    }
    // Zone 0 is an ordinary zone, and so is 255.
    gives(&table, 0, yes(4));
    let table = raw::table(&[raw::zone(255, 0), raw::fan(255, 0x05, 0x06)]);
    gives(&table, 255, yes(2));
    gives(&table, 0, no(2));
}

/// Zones and strings are walked too, and count.
#[test]
fn all_elements_count() {
    let mut elements: Vec<Vec<u8>> = (1..=12).map(|number| raw::zone(number, 0)).collect();
    elements.extend((1..=20).map(|number| raw::text(number, b"name")));
    elements.push(raw::pump(12, 0x13, 0xFF));
    let table = raw::table(&elements);
    gives(&table, 12, yes(33));
    gives(&table, 11, no(33));
}

/// The reader's refusals, whatever the zone, even where a fan of the zone stands before the fault.
#[test]
fn refusals() {
    for settings in Settings::ALL {
        refuses(&[], settings, 1, 0);
        refuses(&TABLE_A[..15], settings, 1, 0);
        refuses(&raw::table(&[raw::FAN_F.to_vec()]), settings, 13, 16);
        let twice = zoned(&[raw::FAN_F.to_vec(), raw::FAN_F.to_vec()]);
        refuses(&twice, settings, 10, 62);
        let unknown = zoned(&[raw::FAN_F.to_vec(), raw::element(0x0F, &[0; 5])]);
        refuses(&unknown, settings, 7, 62);
    }
    // By the caller's settings.
    let four = zoned(&[raw::FAN_F.to_vec(), raw::current(1, 0x24)]);
    refuses(&four, ON_321, 10, 62);
    assert_eq!(fan(&four, 1, ON_320), Ok(yes(2)));
    let retired = zoned(&[raw::FAN_F.to_vec(), raw::digital(1, 2, 0x40)]);
    refuses(&retired, ON_320, 23, 62);
    assert_eq!(fan(&retired, 1, ARCHIVE), Ok(yes(2)));
}

/// Whatever the table: as from the records.
#[test]
fn as_from_the_records() {
    let mut random = Random::new(1014);
    let mut met = [0; 2];
    let mut hold = |table: &[u8], settings: Settings| {
        // Every zone of a short table; of others those that stand in byte 7, and some.
        let zones: Vec<u8> = match second::check(table, settings) {
            Verdict::Accepted(0..=12) => (0..=255).collect(),
            _ => raw::cut(table).filter_map(|e| e.get(7).copied()).collect(),
        };
        for zone in zones.into_iter().chain([0, 1, 255]) {
            let answer = fan(table, zone, settings);
            let from_records = plain::fan(table, zone, settings);
            assert_eq!(answer, from_records, "{zone}: {table:02X?}");
            if let Ok(walked) = answer {
                met[usize::from(walked.met)] += 1;
            }
        }
    };
    for at in 0..400 {
        let settings = Settings::ALL[at % 4];
        hold(&valid(&mut random, settings), settings);
        hold(&any(&mut random, settings), settings);
        hold(&mixed_of(&mut random, 1 + at % 96, settings), settings);
    }
    for (at, (_, table)) in targeted().iter().enumerate() {
        hold(table, Settings::ALL[at % 4]);
    }
    assert!(met.iter().all(|&count| count > 500), "{met:?}");
}

/// What the listing shows of an accepted table decides it too: the first line with 03 or 06 and the zone.
#[test]
fn as_the_listing_shows() {
    let mut random = Random::new(1410);
    for at in 0..300 {
        let settings = Settings::ALL[at % 4];
        let table = valid(&mut random, settings);
        let text = String::from_utf8(second::listing(&table, settings)).unwrap();
        let lines: Vec<Vec<&str>> = text
            .lines()
            .map(|line| line.split('\t').collect())
            .collect();
        for zone in 0..=255u8 {
            let number = zone.to_string();
            // The table's own line is line 0, so that element k is line k + 1.
            let of_zone = |line: &Vec<&str>| {
                line[0] == "E" && ["03", "06"].contains(&line[2]) && line[3] == number
            };
            let wanted = match lines.iter().position(of_zone) {
                Some(line) => yes(line),
                None => no(lines.len() - 1),
            };
            assert_eq!(fan(&table, zone, settings), Ok(wanted), "{zone}: {text}");
        }
    }
}
