//! Block mode is retired: 23 by the ordinary reader and by append, the old rules and a last field in the
//! archive. Zone 1 stands at 16, so that the first other element stands at 46.


use crate::common::{gives, gives_by, with, zoned, ARCHIVE, ON_320, ON_321};
use second::element::read_element;
use second::generator::raw::{self, Parts};
use second::generator::{has_block_mode, only_in_the_archive, valid};
use second::pins::Pin;
use second::random::Random;
use second::record::{Address, Element};
use second::{append, plain, Chip, Refusal, Rules, Settings};

/// One of each kind that has a bus type, with this byte 8.
fn devices(bus: u8) -> [Vec<u8>; 4] {
    [
        raw::digital(1, bus, 0x40),
        raw::controller(1, bus, 0x40, &[1]),
        raw::tachometer(1, bus, 0x40, 0, 0),
        raw::external(1, bus, 0x40, [0; 3]),
    ]
}

/// 23 by the ordinary reader; this number and place, or count, by the archive's.
#[track_caller]
fn retired(table: &[u8], place: usize, number: u8, beside: usize) {
    gives_by(Rules::Ordinary, table, 23, place);
    gives_by(Rules::Archive, table, number, beside);
}

#[test]
fn each_kind_that_has_a_bus_type() {
    for high in 0..16 {
        for element in devices(high << 4 | 2) {
            retired(&zoned(&[element]), 46, 0, 2);
        }
        // The other codes are what they were.
        for bus in [0, 1] {
            for element in devices(high << 4 | bus) {
                gives(&zoned(&[element]), 0, 2);
            }
        }
        for bus in 4..16 {
            for element in devices(high << 4 | bus) {
                gives(&zoned(&[element]), 9, 46);
            }
        }
    }
    gives(&zoned(&[raw::digital(1, 3, 0x14)]), 0, 2);
}

#[test]
fn byte_8_of_other_kinds_is_no_bus_type() {
    gives(&zoned(&[raw::led(1, [0x02, 0xFF, 0xFF])]), 0, 2);
    gives(&zoned(&[with(&[(8, 2)], raw::analogue(1, 0x20))]), 9, 46);
    gives(&zoned(&[with(&[(8, 2)], raw::current(1, 0x20))]), 10, 46);
    gives(&zoned(&[raw::text(1, &[2; 10])]), 0, 2);
}

#[test]
fn directly_after_9() {
    // 8 and 9 of the same element come first.
    gives(&zoned(&[raw::controller(1, 2, 0x40, &[0])]), 9, 46);
    gives(&zoned(&[raw::controller(1, 0xF2, 0x40, &[1, 0])]), 9, 46);
    gives(&zoned(&[raw::controller(1, 2, 0x40, &[0; 7])]), 8, 46);
    let mut reserved = raw::external(1, 2, 0x40, [0; 3]);
    reserved[11] = 4;
    gives(&zoned(&[reserved]), 9, 46);
    gives(
        &zoned(&[with(&[(12, 1)], raw::external(1, 2, 0x40, [0; 3]))]),
        8,
        46,
    );
    let cut = raw::element(0x0A, &raw::tachometer(1, 2, 0x40, 1, 0)[3..17]);
    gives(&zoned(&[cut]), 8, 46);
    let longer = [&raw::digital(1, 2, 0x40)[3..], &[0]].concat();
    gives(&zoned(&[raw::element(0x01, &longer)]), 8, 46);
    // 13, 14 and 15 come later, and so does whatever stands behind the element.
    retired(&raw::table(&[raw::digital(1, 2, 0x40)]), 16, 13, 16);
    let nameless = with(&[(3, 9)], raw::digital(1, 2, 0x40));
    retired(&zoned(&[nameless]), 46, 14, 46);
    let light = raw::led(1, [0x03, 0xFF, 0xFF]);
    let clash = zoned(&[light, raw::digital(1, 2, 0x40)]);
    retired(&clash, 60, 15, 60);
    let wrong_pin = zoned(&[raw::digital(1, 2, 0x40), raw::analogue(1, 0x10)]);
    retired(&wrong_pin, 46, 10, 67);
    let again = zoned(&[raw::digital(1, 2, 0x40), raw::zone(1, 0)]);
    retired(&again, 46, 12, 67);
    // What stands before it comes first.
    let before = zoned(&[raw::analogue(1, 0x10), raw::digital(1, 2, 0x40)]);
    gives(&before, 10, 46);
    let mut parts = Parts::of(&[raw::digital(1, 2, 0x40)]);
    parts.description[9] = 0x31;
    gives(&parts.bytes(), 10, 0);
}

#[test]
fn the_first_of_two_is_named() {
    let all = devices(0xF2);
    retired(&zoned(&all), 46, 0, 5);
    for later in all {
        retired(&zoned(&[raw::digital(1, 1, 0x40), later]), 67, 0, 3);
    }
}

/// It shares P0.3 and P0.4, as the other bus types under 3 do, and its address is no pin.
#[test]
fn the_archive_keeps_the_old_claims() {
    let on_the_bus = |pin| raw::led(1, [pin, 0xFF, 0xFF]);
    for element in devices(2) {
        let place = 46 + element.len();
        for pin in [0x03, 0x04] {
            retired(&zoned(&[element.clone(), on_the_bus(pin)]), 46, 15, place);
        }
        retired(&zoned(&[element.clone(), on_the_bus(0x00)]), 46, 0, 3);
        retired(&zoned(&[element.clone(), element.clone()]), 46, 0, 3);
        let address = with(&[(9, 0xFF)], element);
        retired(&zoned(&[address]), 46, 0, 2);
    }
}

#[test]
fn listed_with_a_last_field() {
    let mut elements = devices(0xF2).to_vec();
    elements.extend(devices(1));
    elements.push(raw::digital(1, 3, 0x14));
    let table = zoned(&elements);
    let wanted = "E\t16\t0B\t1\t-\n\
        E\t46\t01\t1\t-\tretired\n\
        E\t67\t09\t1\t-\tretired\n\
        E\t84\t0A\t1\t-\tretired\n\
        E\t98\t0D\t1\t-\tretired\n\
        E\t113\t01\t1\t-\n\
        E\t134\t09\t1\t-\n\
        E\t151\t0A\t1\t-\n\
        E\t165\t0D\t1\t-\n\
        E\t180\t01\t1\tP1.4\n";
    for listing in [second::listing, plain::listing] {
        let text = String::from_utf8(listing(&table, ARCHIVE)).unwrap();
        assert_eq!(text.split_once('\n').unwrap().1, wanted);
        assert_eq!(listing(&table, ON_320), b"R\t23\t46\n");
        assert_eq!(listing(&table, ON_321), b"R\t23\t46\n");
    }
}

/// Whenever the ordinary answer is not 23 the archive's is the same, the listing included.
#[test]
fn without_block_mode_both_readers_are_one() {
    let mut random = Random::new(86);
    for at in 0..5_000 {
        let settings = Settings::ALL[at % 2];
        let table = valid(&mut random, settings);
        assert!(!has_block_mode(&table));
        let archive = settings.other_rules();
        assert_eq!(
            second::check(&table, archive),
            second::check(&table, settings)
        );
        assert_eq!(
            second::listing(&table, archive),
            second::listing(&table, settings)
        );
        let k = random.below(40);
        assert_eq!(
            second::element(&table, k, archive),
            second::element(&table, k, settings)
        );
    }
}

/// Every call that checks the table first does it with the caller's settings.
#[test]
fn read_out_in_the_archive_alone() {
    let table = zoned(&[raw::controller(1, 2, 0x40, &[1])]);
    let refusal = Refusal::at(23, 46);
    let Ok(Element::Controller(record)) = second::element(&table, 1, ARCHIVE) else {
        panic!("no controller");
    };
    assert_eq!(record.attachment.bus_type, 2);
    assert_eq!(record.attachment.address, Address::Bus(0x20));
    assert_eq!(second::part(&table, 1, ARCHIVE).len(), 6);
    let mut numbers = [0xA5; 32];
    assert_eq!(second::fields(&table, 1, ARCHIVE, &mut numbers), Ok(9));
    assert_eq!(numbers[5..8], [2, 0, 0x20]);
    assert_eq!(second::part_place(&table, 1, ARCHIVE), Ok(57..63));
    assert!(second::describe(&table, ARCHIVE, &mut numbers).is_ok());
    let before = numbers;
    assert_eq!(second::element(&table, 1, ON_320), Err(refusal));
    assert!(second::part(&table, 1, ON_320).is_empty());
    assert_eq!(
        second::fields(&table, 1, ON_320, &mut numbers),
        Err(refusal)
    );
    assert_eq!(second::describe(&table, ON_321, &mut numbers), Err(refusal));
    assert_eq!(second::part_place(&table, 9, ON_320), Err(refusal));
    assert_eq!(second::text_place(&table, 9, ON_320), Err(refusal));
    assert_eq!(second::element(&table, 9, ARCHIVE), Err(Refusal::at(17, 0)));
    assert_eq!(numbers, before);
}

/// Appended behind 20 bytes with or without room.
fn appended(record: &Element, part: &[u8], room: usize) -> Result<usize, Refusal> {
    let mut buffer = vec![0xA5; 20 + room];
    buffer[1..3].copy_from_slice(&[20, 0]);
    let before = buffer.clone();
    let answer = append(&mut buffer, Chip::F320, record, part);
    assert_eq!(answer.is_err(), buffer == before);
    answer
}

/// At the length so far, after 25, 8 and 9, before 16. There is no pin beside block mode, so that no 10 can
/// meet it.
#[test]
fn append_refuses_it() {
    for bytes in devices(2) {
        let (record, part) = read_element(&bytes, Chip::F320).unwrap();
        assert_eq!(appended(&record, part, 60), Err(Refusal::at(23, 20)));
        assert_eq!(appended(&record, part, 0), Err(Refusal::at(23, 20)));
        let longer = [part, &[1]].concat();
        assert_eq!(appended(&record, &longer, 60), Err(Refusal::at(8, 20)));
        let bent = |address| {
            let mut record = record;
            record.attachment_mut().expect("a bus device").address = address;
            record
        };
        let select = bent(Address::Select(Pin::on(Chip::F320, 0x31)));
        assert_eq!(appended(&select, part, 60), Err(Refusal::at(9, 20)));
        let large = bent(Address::Bus(0x80));
        assert_eq!(appended(&large, part, 60), Err(Refusal::at(25, 0)));
    }
    let (record, _) = read_element(&raw::CONTROLLER_C, Chip::F320).unwrap();
    let Element::Controller(mut controller) = record else {
        panic!("no controller");
    };
    controller.attachment.bus_type = 2;
    let record = Element::Controller(controller);
    assert_eq!(appended(&record, &[5, 0], 60), Err(Refusal::at(9, 20)));
}

/// The archive's records of a table with block mode are refused by append, and the table by rewrite.
#[test]
fn nothing_writes_it() {
    let mut random = Random::new(87);
    for at in 0..2_000 {
        let chip = Chip::BOTH[at % 2];
        let table = only_in_the_archive(&mut random, chip);
        let refusal = second::check(&table, chip.into())
            .into_result()
            .unwrap_err();
        assert_eq!(refusal.number, 23);
        let mut out = vec![0xA5; table.len()];
        assert_eq!(second::rewrite(&table, chip, &mut out), Err(refusal));
        let by_records = second::rewrite_by_records(&table, chip, &mut out);
        assert_eq!(by_records, Err(refusal));
        assert!(out.iter().all(|&byte| byte == 0xA5));
        let refused = second::access::walk(&table).find_map(|(place, bytes)| {
            let (record, part) = read_element(bytes, chip).unwrap();
            let mut buffer = vec![0; 4096];
            buffer[1..3].copy_from_slice(&(place as u16).to_le_bytes());
            append(&mut buffer, chip, &record, part).err()
        });
        assert_eq!(refused, Some(refusal));
    }
}

/// Bits 0 and 1 alone are looked at.
#[test]
fn settings_as_a_number() {
    for noise in [0, 4, 0x100, 1 << 32, 1 << 63, !3] {
        for (number, settings) in Settings::ALL.into_iter().enumerate() {
            assert_eq!(Settings::of_number(noise | number as u64), settings);
            assert_eq!(settings.number(), number as u64);
        }
    }
    assert_eq!(Settings::default(), ON_320);
    assert_eq!(Settings::of_number(2), ARCHIVE);
}
