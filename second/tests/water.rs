//! The kinds of the water kits: 05h, 06h, 07h and 0Dh. Zone 1 stands at 16, so that the first other element
//! stands at 46.


use crate::common::{gives, gives_on, with, zoned, ON_320};
use second::element::read_element;
use second::generator::raw::{self, Parts};
use second::pins::Pin;
use second::record::{Address, Element, ExternalRgb, Fan, Voltage, WaterLevel};
use second::units::{Decivolts, Rpm};
use second::{append, element, part, Chip, Refusal};

/// The record, and the table written again from it.
#[track_caller]
fn read(bytes: &[u8]) -> Element {
    let table = zoned(&[bytes.to_vec()]);
    gives(&table, 0, 2);
    let mut out = vec![0xA5; table.len()];
    let again = second::rewrite_by_records(&table, Chip::F320, &mut out);
    assert_eq!(again, Ok(table.len()));
    assert_eq!(out, second::cleared(&table));
    element(&table, 1, ON_320).unwrap()
}

fn pin(byte: u8) -> Pin {
    Pin::on(Chip::F320, byte)
}

#[test]
fn fields_of_a_water_level() {
    let bytes = [5, 15, 0, 0, 1, 2, 3, 1, 0x16, 0x11, 1, 0x22, 2, 0x33, 3];
    let Element::WaterLevel(WaterLevel {
        pin: own,
        full,
        empty,
        warning,
        ..
    }) = read(&bytes)
    else {
        panic!("no water level");
    };
    assert_eq!(own, pin(0x16));
    assert_eq!([full, empty, warning], [0x111, 0x222, 0x333]);
}

/// A kind of its own with a fan's record.
#[test]
fn fields_of_a_pump() {
    let Element::Pump(pump) = read(&raw::pump(1, 0x05, 0x06)) else {
        panic!("no pump");
    };
    let Element::Fan(fan) = read(&raw::FAN_F) else {
        panic!("no fan");
    };
    assert_eq!(pump, fan);
    let Fan { minimum_rpm, .. } = pump;
    assert_eq!(minimum_rpm, Rpm(300));
}

#[test]
fn fields_of_a_voltage() {
    for (byte_9, byte_10) in [(140, 0), (0, 140), (255, 255), (12, 34)] {
        let bytes = with(&[(9, byte_9), (10, byte_10)], raw::voltage(1, 0x30));
        assert_eq!(bytes.len(), 11);
        let Element::Voltage(Voltage {
            at_maximum,
            at_minimum,
            ..
        }) = read(&bytes)
        else {
            panic!("no voltage");
        };
        assert_eq!(at_maximum, Decivolts(byte_9));
        assert_eq!(at_minimum, Decivolts(byte_10));
    }
}

#[test]
fn fields_of_an_external_rgb_led() {
    let bytes = with(&[(11, 3)], raw::external(1, 3, 0x13, [1, 0, 2]));
    let Element::ExternalRgb(ExternalRgb {
        attachment,
        chip_identifier,
        ..
    }) = read(&bytes)
    else {
        panic!("no external RGB LED");
    };
    assert_eq!(attachment.address, Address::Select(pin(0x13)));
    assert_eq!(chip_identifier, 3);
    let table = zoned(&[bytes]);
    let blocks = [1, 7, 0, 0, 0, 0, 2, 7, 0, 0, 0, 7, 0, 1, 0];
    assert_eq!(part(&table, 1, ON_320), blocks);
    assert_eq!(part(&table, 1, ON_320).as_ptr(), table[58..].as_ptr());
}

#[test]
fn lengths() {
    for (bytes, length) in [
        (raw::water(1, 0x14), 15),
        (raw::pump(1, 0x05, 0x06), 16),
        (raw::voltage(1, 0x14), 11),
    ] {
        for wrong in 3..40 {
            let mut body = bytes[3..].to_vec();
            body.resize(wrong - 3, 0);
            let table = zoned(&[raw::element(bytes[0], &body)]);
            match wrong == length {
                true => gives(&table, 0, 2),
                false => gives(&table, 8, 46),
            }
        }
    }
}

/// 9 for a level over 1023, before a wrong pin; no order among the three.
#[test]
fn levels() {
    for at in [9, 11, 13] {
        for (value, number) in [(0u16, 0), (1023, 0), (1024, 9), (0x8000, 9), (65_535, 9)] {
            let [low, high] = value.to_le_bytes();
            let level = |pin| with(&[(at, low), (at + 1, high)], raw::water(1, pin));
            let beside = if number == 0 { 2 } else { 46 };
            gives(&zoned(&[level(0x14)]), number, beside);
            let number = if number == 0 { 10 } else { 9 };
            gives(&zoned(&[level(0x13)]), number, 46);
        }
    }
}

#[test]
fn pulses_of_a_pump() {
    let pump = |tachometer, pulses| with(&[(10, pulses)], raw::pump(1, 0x05, tachometer));
    gives(&zoned(&[pump(0x06, 0)]), 0, 2);
    gives(&zoned(&[pump(0xFF, 0)]), 0, 2);
    gives(&zoned(&[pump(0xFF, 1)]), 9, 46);
    gives(&zoned(&[pump(0xF0, 0)]), 10, 46);
    gives(&zoned(&[pump(0x05, 0)]), 10, 46);
    gives(&zoned(&[raw::pump(1, 0x06, 0x05)]), 10, 46);
    gives(&zoned(&[raw::pump(1, 0xFF, 0x05)]), 10, 46);
    gives(&zoned(&[raw::pump(1, 0x14, 0xFF)]), 10, 46);
}

/// FFh is no pin of an analogue sensor.
#[test]
fn analogue_pins() {
    for made in [raw::water, raw::voltage] {
        for pin in [0xFF, 0x13, 0x10, 0x07, 0x18, 0x31] {
            gives(&zoned(&[made(1, pin)]), 10, 46);
        }
        for pin in [0x24, 0x27] {
            gives_on(Chip::F320, &zoned(&[made(1, pin)]), 0, 2);
            gives_on(Chip::F321, &zoned(&[made(1, pin)]), 10, 46);
        }
        gives(&zoned(&[made(1, 0x30)]), 0, 2);
    }
}

#[test]
fn chip_identifiers() {
    for chip in 0..=255 {
        let coded = |bus, address| with(&[(11, chip)], raw::external(1, bus, address, [0; 3]));
        let good = (1..=3).contains(&chip);
        let (number, beside) = if good { (0, 2) } else { (9, 46) };
        gives(&zoned(&[coded(0, 0x40)]), number, beside);
        gives(&zoned(&[coded(3, 0x14)]), number, beside);
        gives(&zoned(&[coded(3, 0x10)]), if good { 10 } else { 9 }, 46);
        gives(&zoned(&[coded(4, 0x40)]), 9, 46);
    }
}

/// Three blocks fill the element from byte 12 exactly; none may be there and none may be empty.
#[test]
fn three_blocks() {
    for entries in [[0, 0, 0], [1, 2, 3], [200, 100, 50], [255, 255, 255]] {
        let whole = raw::external(1, 0, 0x40, entries);
        let sum: usize = entries.iter().map(|&count| usize::from(count)).sum();
        assert_eq!(whole.len(), 15 + 4 * sum);
        gives(&zoned(std::slice::from_ref(&whole)), 0, 2);
        let shorter = raw::element(0x0D, &whole[3..whole.len() - 1]);
        gives(&zoned(&[shorter]), 8, 46);
        let longer = raw::element(0x0D, &[&whole[3..], &[0]].concat());
        gives(&zoned(&[longer]), 8, 46);
        // 8 comes before 9.
        gives(&zoned(&[with(&[(12, 254), (11, 0)], whole)]), 8, 46);
    }
    for length in 3..15 {
        let cut = raw::element(0x0D, &raw::external(1, 0, 0x40, [0; 3])[3..length]);
        gives(&zoned(&[cut]), 8, 46);
    }
    // Byte 11 is no ENTRIES byte.
    gives(
        &zoned(&[with(&[(11, 3)], raw::external(1, 0, 0x40, [0; 3]))]),
        0,
        2,
    );
}

#[test]
fn reserved_places_of_an_external_rgb_led() {
    for (clean, dirty) in [
        (
            raw::external(1, 1, 0x40, [1, 0, 0]),
            [(8, 0xF1), (9, 0x41), (10, 0xFF)],
        ),
        (
            raw::external(1, 3, 0x15, [0; 3]),
            [(8, 0xF3), (9, 0x15), (10, 0xFF)],
        ),
    ] {
        let table = zoned(&[with(&dirty, clean.clone())]);
        gives(&table, 0, 2);
        let mut out = vec![0; table.len()];
        assert!(second::rewrite(&table, Chip::F320, &mut out).is_ok());
        assert_eq!(out, zoned(&[clean]));
    }
    // The other three have none.
    for bytes in [raw::water(1, 0x14), raw::voltage(1, 0x14)] {
        let table = zoned(&[bytes]);
        assert_eq!(second::cleared(&table), table);
    }
}

/// P0.7 is shared by all four analogue kinds; strapped it clashes with each.
#[test]
fn the_reference_pin() {
    let kinds = || {
        [
            raw::analogue(1, 0x14),
            raw::water(1, 0x15),
            raw::voltage(1, 0x16),
            raw::current(1, 0x17),
        ]
    };
    gives(&zoned(&kinds()), 0, 5);
    for element in kinds() {
        let mut parts = Parts::of(&[raw::zone(1, 0), element]);
        parts.description[10] = 0x07;
        gives(&parts.bytes(), 15, 46);
    }
}

/// Own pins clash with every other use, in both orders; two chip selects do not.
#[test]
fn clashes() {
    let light = || raw::led(1, [0x14, 0xFF, 0xFF]);
    for element in [
        raw::water(1, 0x14),
        raw::voltage(1, 0x14),
        raw::external(1, 3, 0x14, [0; 3]),
    ] {
        let length = element.len();
        gives(&zoned(&[element.clone(), light()]), 15, 46 + length);
        gives(&zoned(&[light(), element.clone()]), 15, 60);
    }
    gives(
        &zoned(&[raw::water(1, 0x14), raw::voltage(1, 0x14)]),
        15,
        61,
    );
    for select in [
        raw::digital(1, 3, 0x05),
        raw::controller(1, 3, 0x05, &[1]),
        raw::tachometer(1, 3, 0x05, 0, 0),
        raw::external(1, 3, 0x05, [1, 0, 0]),
    ] {
        let external = raw::external(1, 3, 0x05, [0; 3]);
        gives(&zoned(&[select.clone(), external.clone()]), 0, 3);
        gives(&zoned(&[external, select.clone()]), 0, 3);
        let place = 46 + select.len();
        gives(&zoned(&[select, raw::pump(1, 0x05, 0xFF)]), 15, place);
    }
    let on_the_bus = raw::led(1, [0x03, 0xFF, 0xFF]);
    let external = raw::external(1, 0, 0x40, [0; 3]);
    gives(&zoned(&[external.clone(), on_the_bus.clone()]), 15, 61);
    gives(&zoned(&[on_the_bus, external]), 15, 60);
}

#[test]
fn lines_of_the_listing() {
    let table = zoned(&[
        raw::water(1, 0x14),
        raw::pump(1, 0x05, 0x06),
        raw::pump(1, 0x11, 0xFF),
        raw::voltage(1, 0x30),
        raw::external(1, 0, 0x40, [0; 3]),
        raw::external(1, 3, 0x13, [0; 3]),
    ]);
    let text = String::from_utf8(second::listing(&table, ON_320)).unwrap();
    let wanted = "E\t46\t05\t1\tP1.4\n\
        E\t61\t06\t1\tP0.5,P0.6\n\
        E\t77\t06\t1\tP1.1\n\
        E\t93\t07\t1\tP3.0\n\
        E\t104\t0D\t1\t-\n\
        E\t119\t0D\t1\tP1.3\n";
    assert!(text.ends_with(wanted), "{text}");
    assert_eq!(second::plain::listing(&table, ON_320), text.as_bytes());
}

#[test]
fn append_checks_the_same() {
    let call = |bytes: &[u8], part: &[u8]| {
        let (record, _) = read_element(bytes, Chip::F320).unwrap();
        let mut buffer = vec![0xA5; 100];
        buffer[1..3].copy_from_slice(&[20, 0]);
        append(&mut buffer, Chip::F320, &record, part)
    };
    let at = |number| Err(Refusal::at(number, 20));
    assert_eq!(call(&raw::water(1, 0x14), &[]), Ok(35));
    assert_eq!(call(&raw::water(1, 0xFF), &[]), at(10));
    assert_eq!(call(&with(&[(10, 4)], raw::water(1, 0xFF)), &[]), at(9));
    assert_eq!(call(&with(&[(14, 4)], raw::water(1, 0xFF)), &[1]), at(8));
    assert_eq!(call(&raw::pump(1, 5, 6), &[]), Ok(36));
    assert_eq!(call(&raw::pump(1, 6, 5), &[]), at(10));
    let without = with(&[(10, 1)], raw::pump(1, 6, 0xFF));
    assert_eq!(call(&without, &[]), at(9));
    assert_eq!(call(&raw::voltage(1, 0x14), &[]), Ok(31));
    assert_eq!(call(&raw::voltage(1, 0x13), &[]), at(10));
    let external = raw::external(1, 0, 0x40, [0; 3]);
    assert_eq!(call(&external, &[0, 0, 0]), Ok(35));
    assert_eq!(call(&external, &[0, 0, 1, 7, 0, 1, 0]), Ok(39));
    for part in [&[][..], &[0], &[0, 0], &[0, 0, 1], &[0, 0, 0, 0]] {
        assert_eq!(call(&external, part), at(8));
    }
    for chip in [0, 4, 255] {
        let coded = with(&[(11, chip)], external.clone());
        assert_eq!(call(&coded, &[0; 3]), at(9));
        assert_eq!(call(&coded, &[0; 2]), at(8));
    }
    assert_eq!(call(&raw::external(1, 3, 0x10, [0; 3]), &[0; 3]), at(10));
}
