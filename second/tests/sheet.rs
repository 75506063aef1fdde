//! The pin sheet: made afresh, brought forward after an append, and as text.


use crate::common::{changed, with, zoned, ON_320};
use second::access::walk;
use second::element::id;
use second::generator::raw::{self, TABLE_A};
use second::generator::{any, mixed_of, targeted, valid, valid_parts};
use second::pins::{name, ALL, ONLY_320};
use second::random::Random;
use second::sheet::{FREE, LED, SHEET_TEXT};
use second::{forward, sheet, sheet_text, Chip, Refusal, Settings, Sheet, Verdict};

/// What stands in a sheet before a call: no offset, not free, not the fault LED's.
const OLD: Sheet = [0xA55A; 25];

fn at(pin: u8) -> usize {
    ALL.iter().position(|&byte| byte == pin).unwrap()
}

/// All free but the fault LED's pin and these.
fn of(taken: &[(u8, u16)]) -> Sheet {
    let mut sheet = [FREE; 25];
    sheet[at(0x10)] = LED;
    for &(pin, place) in taken {
        sheet[at(pin)] = place;
    }
    sheet
}

/// The sheet made afresh of an accepted table.
#[track_caller]
fn made(table: &[u8], chip: Chip) -> Sheet {
    let mut made = OLD;
    let count = sheet(table, chip, &mut made).unwrap();
    assert_eq!(count, walk(table).count());
    made
}

/// On both chips.
#[track_caller]
fn gives(table: &[u8], taken: &[(u8, u16)]) {
    for chip in Chip::BOTH {
        assert_eq!(made(table, chip), of(taken), "{chip:?}");
    }
}

/// Both calls refuse so, and leave the sheet as it was.
#[track_caller]
fn refuses(table: &[u8], chip: Chip, number: u8, place: usize) {
    let refusal = Err(Refusal::at(number, place));
    for call in [sheet, forward] {
        let mut kept = OLD;
        assert_eq!(call(table, chip, &mut kept), refusal);
        assert_eq!(kept, OLD);
    }
}

#[test]
fn table_a() {
    gives(&TABLE_A, &[]);
    let free = |pin: &u8| format!("{}\t-\n", name(*pin));
    let before: String = ALL[..8].iter().map(free).collect();
    let behind: String = ALL[9..].iter().map(free).collect();
    let text = sheet_text(&made(&TABLE_A, Chip::F320), Chip::F320);
    assert_eq!(text, format!("{before}P1.0\tL\n{behind}"));
    assert_eq!(text.lines().count(), 25);
    let text = sheet_text(&made(&TABLE_A, Chip::F321), Chip::F321);
    assert_eq!(text.lines().count(), 21);
    assert!(text.ends_with("P2.2\t-\nP2.3\t-\nP3.0\t-\n"), "{text}");
}

#[test]
fn the_text_of_a_fan_and_its_zone() {
    let table = raw::table(&[raw::FAN_F.to_vec(), raw::zone(1, 0)]);
    let wanted = "P0.0\t-\nP0.1\t-\nP0.2\t-\nP0.3\t-\nP0.4\t-\nP0.5\t16\nP0.6\t16\nP0.7\t-\n\
        P1.0\tL\nP1.1\t-\nP1.2\t-\nP1.3\t-\nP1.4\t-\nP1.5\t-\nP1.6\t-\nP1.7\t-\n\
        P2.0\t-\nP2.1\t-\nP2.2\t-\nP2.3\t-\nP3.0\t-\n";
    assert_eq!(sheet_text(&made(&table, Chip::F321), Chip::F321), wanted);
}

/// 0 for the description.
#[test]
fn hardware_revision_pins() {
    gives(&changed(&[(9, 0x30)]), &[(0x30, 0)]);
    let three = changed(&[(9, 0x07), (10, 0x00), (11, 0x23)]);
    gives(&three, &[(0x00, 0), (0x07, 0), (0x23, 0)]);
    let four = changed(&[(10, 0x27)]);
    assert_eq!(made(&four, Chip::F320), of(&[(0x27, 0)]));
    refuses(&four, Chip::F321, 10, 0);
}

/// Each kind alone, behind the zone descriptor: its shared pins and its own.
#[test]
fn every_kind() {
    let alone = |element: Vec<u8>, pins: &[u8]| {
        let taken: Vec<(u8, u16)> = pins.iter().map(|&pin| (pin, 46)).collect();
        gives(&zoned(&[element]), &taken);
    };
    alone(raw::digital(1, 0, 0x40), &[0x03, 0x04]);
    alone(raw::digital(1, 1, 0x40), &[0x03, 0x04]);
    alone(raw::digital(1, 3, 0x14), &[0x00, 0x01, 0x02, 0x14]);
    alone(raw::analogue(1, 0x15), &[0x07, 0x15]);
    alone(raw::fan(1, 0x05, 0x06), &[0x05, 0x06]);
    alone(raw::fan(1, 0x13, 0xFF), &[0x13]);
    alone(raw::led(1, [0x04, 0xFF, 0x30]), &[0x04, 0x30]);
    alone(raw::led(1, [0xFF; 3]), &[]);
    alone(raw::water(1, 0x16), &[0x07, 0x16]);
    alone(raw::pump(1, 0x06, 0x12), &[0x06, 0x12]);
    alone(raw::voltage(1, 0x17), &[0x07, 0x17]);
    alone(raw::current(1, 0x20), &[0x07, 0x20]);
    alone(raw::controller(1, 0, 0x40, &[1]), &[0x03, 0x04]);
    alone(raw::controller(1, 3, 0x11, &[1]), &[0x00, 0x01, 0x02, 0x11]);
    alone(raw::tachometer(1, 1, 0x40, 0, 0), &[0x03, 0x04]);
    alone(raw::tachometer(1, 3, 0x21, 0, 0), &[0x00, 0x01, 0x02, 0x21]);
    alone(raw::external(1, 0, 0x40, [0; 3]), &[0x03, 0x04]);
    alone(raw::external(1, 3, 0x22, [0; 3]), &[0x00, 0x01, 0x02, 0x22]);
    alone(raw::rgb(1, 0x05, 0x11, 0x13), &[0x05, 0x11, 0x13]);
    alone(raw::zone(2, 0), &[]);
    alone(raw::text(1, b"abcd"), &[]);
}

/// Of a shared pin and of a chip select the earliest: a second user changes nothing there.
#[test]
fn the_first_of_several() {
    let analogue = zoned(&[raw::current(1, 0x20), raw::analogue(1, 0x14)]);
    gives(&analogue, &[(0x07, 46), (0x20, 46), (0x14, 60)]);
    let selects = zoned(&[
        raw::digital(1, 3, 0x14),
        raw::digital(1, 3, 0x15),
        raw::external(1, 3, 0x14, [0; 3]),
    ]);
    let bus = [(0x00, 46), (0x01, 46), (0x02, 46)];
    gives(&selects, &[&bus[..], &[(0x14, 46), (0x15, 67)]].concat());
    let both = zoned(&[
        raw::digital(1, 0, 0x40),
        raw::controller(1, 1, 0x42, &[1]),
        raw::led(1, [0x00, 0x01, 0x02]),
    ]);
    let lamps = [(0x00, 84), (0x01, 84), (0x02, 84)];
    gives(&both, &[&lamps[..], &[(0x03, 46), (0x04, 46)]].concat());
}

/// By the ordinary rules and the chip that is told.
#[test]
fn refusals_keep_the_old_sheet() {
    for chip in Chip::BOTH {
        refuses(&[], chip, 1, 0);
        refuses(&TABLE_A[..15], chip, 1, 0);
        refuses(&changed(&[(9, 0x10)]), chip, 15, 0);
        refuses(&raw::table(&[raw::FAN_F.to_vec()]), chip, 13, 16);
        let retired = zoned(&[raw::digital(1, 2, 0x40)]);
        refuses(&retired, chip, 23, 46);
        let twice = zoned(&[raw::current(1, 0x14), raw::current(1, 0x14)]);
        refuses(&twice, chip, 15, 60);
    }
    let four = zoned(&[raw::current(1, 0x24)]);
    refuses(&four, Chip::F321, 10, 46);
    assert_eq!(made(&four, Chip::F320), of(&[(0x07, 46), (0x24, 46)]));
}

/// Out of the listing and the bytes: who claims a pin, told another way.
fn told_otherwise(table: &[u8], chip: Chip) -> Sheet {
    let mut sheet = of(&[]);
    let mut enter = |pin: u8, place: usize| {
        if sheet[at(pin)] == FREE {
            sheet[at(pin)] = place as u16;
        }
    };
    for &pin in table[9..12].iter().filter(|&&pin| pin != 0xFF) {
        enter(pin, 0);
    }
    let text = String::from_utf8(second::listing(table, chip.into())).unwrap();
    for (line, (place, bytes)) in text.lines().skip(1).zip(walk(table)) {
        let fields: Vec<&str> = line.split('\t').collect();
        assert_eq!(fields[1], place.to_string());
        let shared: &[u8] = match (bytes[0], bytes.get(8).map(|byte| byte & 0x0F)) {
            (0x01 | 0x09 | 0x0A | 0x0D, Some(3)) => &[0x00, 0x01, 0x02],
            (0x01 | 0x09 | 0x0A | 0x0D, _) => &[0x03, 0x04],
            (0x02 | 0x05 | 0x07 | 0x08, _) => &[0x07],
            _ => &[],
        };
        shared.iter().for_each(|&pin| enter(pin, place));
        for own in fields[4].split(',').filter(|&field| field != "-") {
            let pin = ALL.into_iter().find(|&pin| name(pin) == own);
            enter(pin.unwrap(), place);
        }
    }
    sheet
}

/// Every table of any sort: afresh as told otherwise, or refused and kept; a pin that the 321 lacks is free there.
#[test]
fn as_the_listing_shows() {
    let mut random = Random::new(914);
    let mut accepted = [0; 2];
    let mut hold = |table: &[u8], chip: Chip| {
        let verdict = second::check(table, chip.into());
        let mut new = OLD;
        let answer = sheet(table, chip, &mut new);
        assert_eq!(answer, verdict.into_result());
        if answer.is_err() {
            assert_eq!(new, OLD);
            return;
        }
        accepted[chip as usize] += 1;
        assert_eq!(new, told_otherwise(table, chip), "{table:02X?}");
        let lacking = ONLY_320.map(|pin| new[at(pin)]);
        assert!(chip == Chip::F320 || lacking == [FREE; 4]);
    };
    for turn in 0..1_000 {
        let chip = Chip::BOTH[turn % 2];
        hold(&valid(&mut random, chip.into()), chip);
        hold(&any(&mut random, chip.into()), chip);
        hold(&mixed_of(&mut random, 1 + turn % 96, chip.into()), chip);
    }
    for (_, table) in targeted() {
        Chip::BOTH.into_iter().for_each(|chip| hold(table, chip));
    }
    assert!(accepted.iter().all(|&count| count > 1_000), "{accepted:?}");
}

/// Strings first, then zones, then the rest in its order: from some place on every shorter table is accepted too.
fn declared_first(random: &mut Random, chip: Chip) -> raw::Parts {
    let mut parts = valid_parts(random, chip.into());
    parts.elements.sort_by_key(|element| match element[0] {
        id::TEXT => 0,
        id::ZONE => 1,
        _ => 2,
    });
    parts
}

/// While a table is built: from an accepted one to an accepted one the sheet brought forward is the one made afresh.
#[test]
fn brought_forward_is_made_afresh() {
    let mut random = Random::new(19);
    let (mut equal, mut kept) = (0, 0);
    for turn in 0..600 {
        let chip = Chip::BOTH[turn % 2];
        let parts = match turn % 3 {
            0 => valid_parts(&mut random, chip.into()),
            _ => declared_first(&mut random, chip),
        };
        let mut so_far = raw::Parts {
            elements: Vec::new(),
            ..parts
        };
        let mut old = OLD;
        let mut good = sheet(&so_far.bytes(), chip, &mut old).is_ok();
        for element in parts.elements {
            so_far.elements.push(element);
            let table = so_far.bytes();
            let mut new = old;
            let answer = forward(&table, chip, &mut new);
            assert_eq!(answer, second::check(&table, chip.into()).into_result());
            let mut afresh = old;
            assert_eq!(sheet(&table, chip, &mut afresh), answer);
            if answer.is_err() {
                assert_eq!([new, afresh], [old, old]);
                kept += 1;
            } else if good {
                assert_eq!(new, afresh, "{table:02X?}");
                equal += 1;
            }
            good = answer.is_ok();
            old = afresh;
        }
    }
    assert!(equal > 2_000 && kept > 2_000, "{equal} {kept}");
}

/// The last element alone, on pins that are free, whatever the other numbers are: the fault LED, the description and
/// the elements before are not looked at.
#[test]
fn forward_from_any_numbers() {
    let table = zoned(&[raw::current(1, 0x20), raw::analogue(1, 0x14)]);
    for chip in Chip::BOTH {
        let mut free = [FREE; 25];
        assert_eq!(forward(&table, chip, &mut free), Ok(3));
        let mut wanted = [FREE; 25];
        wanted[at(0x07)] = 60;
        wanted[at(0x14)] = 60;
        assert_eq!(free, wanted);
        for taken in [0, 1, 16, 46, 60, 4095, 4096, 65_533, LED] {
            let mut full = [taken; 25];
            assert_eq!(forward(&table, chip, &mut full), Ok(3));
            assert_eq!(full, [taken; 25]);
            full[at(0x07)] = FREE;
            full[at(0x20)] = FREE;
            let mut wanted = full;
            wanted[at(0x07)] = 60;
            assert_eq!(forward(&table, chip, &mut full), Ok(3));
            assert_eq!(full, wanted);
        }
    }
}

/// A table without elements, and a last element that claims nothing.
#[test]
fn forward_where_nothing_is_claimed() {
    let strapped = changed(&[(9, 0x30)]);
    let named = raw::table(&[raw::zone(1, 0), raw::fan(1, 0x05, 0x06), raw::text(1, b"")]);
    for numbers in [OLD, [FREE; 25], [0; 25], [LED; 25]] {
        for (table, count) in [(&TABLE_A[..], 0), (&strapped, 0), (&named, 3)] {
            let mut same = numbers;
            assert_eq!(forward(table, Chip::F320, &mut same), Ok(count));
            assert_eq!(same, numbers);
        }
    }
}

/// Two appends at once, or one to a refused table: the sheet is not the table's, and forward does not say so.
#[test]
fn a_sheet_of_another_table() {
    let mut sheet = made(&TABLE_A, Chip::F320);
    let table = zoned(&[raw::fan(1, 0x05, 0xFF), raw::fan(1, 0x06, 0xFF)]);
    assert_eq!(forward(&table, Chip::F320, &mut sheet), Ok(3));
    assert_eq!(sheet, of(&[(0x06, 62)]));
}

#[test]
fn the_text_of_any_numbers() {
    let mut sheet = OLD;
    for number in 0..=u16::MAX {
        sheet[3] = number;
        let text = sheet_text(&sheet, Chip::F321);
        let wanted = match number {
            0xFFFF => "-".to_string(),
            0xFFFE => "L".to_string(),
            _ => format!("{number}"),
        };
        let line = text.lines().nth(3).unwrap();
        assert_eq!(line, format!("P0.3\t{wanted}"));
    }
    let longest = [65_533; 25];
    assert_eq!(sheet_text(&longest, Chip::F320).len(), SHEET_TEXT);
    assert_eq!(sheet_text(&longest, Chip::F321).len(), 21 * 11);
    // The four lines are those of P2.4 to P2.7, whatever stands there.
    let places: Sheet = std::array::from_fn(|at| at as u16);
    let text = sheet_text(&places, Chip::F321);
    let last: Vec<&str> = text.lines().skip(19).collect();
    assert_eq!(last, ["P2.3\t19", "P3.0\t24"]);
}

/// The last element of the longest table there is stands at 4,090: no place is taken for a free pin.
#[test]
fn far_places() {
    let filler = raw::text(1, &vec![0; 4096 - 16 - 30 - 14 - 6]);
    let table = zoned(&[filler, raw::current(1, 0x14)]);
    assert_eq!(table.len(), 4096);
    assert_eq!(
        second::check(&table, ON_320),
        Verdict::Accepted(3),
        "{:02X?}",
        &table[..60]
    );
    gives(&table, &[(0x07, 4082), (0x14, 4082)]);
    let settings = Settings::from(Chip::F321);
    let behind = with(&[(4090, 0x24)], table);
    assert_eq!(second::check(&behind, settings).number(), 10);
}
