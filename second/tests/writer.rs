//! The writer: what it refuses, where, and which bytes it leaves.


use second::element::{read_description, read_element};
use second::generator::{self, raw, What, WriterCall};
use second::histogram::Histogram;
use second::layout;
use second::pins::Pin;
use second::random::Random;
use second::record::*;
use second::units::FourMilliamps;
use second::{Chip, Refusal, Verdict};

const CALLS: usize = 60_000;

/// The hand-made calls are on the 320; `chips` has those of both.
fn start(buffer: &mut [u8], record: &Description) -> Result<usize, Refusal> {
    second::start(buffer, Chip::F320, record)
}

fn append(buffer: &mut [u8], record: &Element, part: &[u8]) -> Result<usize, Refusal> {
    second::append(buffer, Chip::F320, record, part)
}

/// A pin of the 320.
fn pin(byte: u8) -> Pin {
    Pin::on(Chip::F320, byte)
}

/// The length that bytes 1-2 say.
fn said(buffer: &[u8]) -> usize {
    usize::from(buffer[1]) + 256 * usize::from(buffer[2])
}

/// After a success only the new bytes have changed, and they read back as the record.
fn appended(call: &WriterCall, after: &[u8], new: usize, element: &Element, part: &[u8]) {
    let before = &call.buffer;
    let old = said(before);
    assert_eq!(said(after), new);
    assert_eq!((before[0], &before[3..old]), (after[0], &after[3..old]));
    assert_eq!(before[new..], after[new..]);
    let bytes = &after[old..new];
    assert_eq!(said(bytes), bytes.len());
    assert_eq!(read_element(bytes, call.chip), Some((*element, part)));
    // Alone in table A the element breaks none of the pass's rules.
    let number = second::check(&raw::table(&[bytes.to_vec()]), call.chip.into()).number();
    assert!(matches!(number, 0 | 13..=15) || bytes.len() > 4080);
}

fn started(call: &WriterCall, after: &[u8], new: usize, description: &Description) {
    let before = &call.buffer;
    assert_eq!(new, 16);
    assert_eq!((after[0], said(after)), (1, 16));
    assert_eq!(after[12..16], [0; 4]);
    assert_eq!(before[16..], after[16..]);
    assert_eq!(read_description(after, call.chip), *description);
    let verdict = second::check(&after[..16], call.chip.into());
    assert!(matches!(verdict.number(), 0 | 14 | 15));
}

#[test]
fn generated_calls() {
    let mut random = Random::new(31);
    let mut starts = Histogram::new();
    let mut appends = Histogram::new();
    for _ in 0..CALLS {
        let call = generator::writer_call(&mut random);
        let mut buffer = call.buffer.clone();
        let (answer, histogram, element_place) = match &call.what {
            What::Start(record) => {
                let answer = second::start(&mut buffer, call.chip, record);
                (answer, &mut starts, 0)
            }
            What::Append(record, part) => {
                let place = call.buffer.get(..3).map_or(0, said);
                let answer = second::append(&mut buffer, call.chip, record, part);
                (answer, &mut appends, place)
            }
        };
        match (answer, &call.what) {
            (Ok(new), What::Start(record)) => started(&call, &buffer, new, record),
            (Ok(new), What::Append(record, part)) => {
                appended(&call, &buffer, new, record, part);
            }
            (Err(Refusal { number, place }), _) => {
                assert_eq!(buffer, call.buffer);
                let at_element = matches!(number, 8..=10 | 23);
                assert_eq!(place, if at_element { element_place } else { 0 });
            }
        }
        histogram.add(answer.map_or_else(|refusal| refusal.number, |_| 0));
    }
    only(&starts, &[0, 1, 4, 5, 10, 25]);
    only(&appends, &[0, 1, 3, 8, 9, 10, 16, 23, 25]);
}

/// These answers came, each at least fifty times, and no others.
fn only(histogram: &Histogram, numbers: &[u8]) {
    for number in 0..=25 {
        let count = histogram.of(number);
        let wanted = numbers.contains(&number);
        assert!(
            if wanted { count >= 50 } else { count == 0 },
            "{number}: {count}"
        );
    }
}

/// Does the address have the kind of its bus type? Bytes cannot say otherwise, records can.
fn kind_fits(element: &Element) -> bool {
    element.attachment().is_none_or(|attachment| {
        let select = matches!(attachment.address, Address::Select(_));
        attachment.bus_type > 3 || select == (attachment.bus_type == 3)
    })
}

/// The rules over records, as append keeps them, are the fast reader's rules over bytes.
#[test]
fn append_and_the_fast_reader_agree_on_8_9_23_10() {
    let mut random = Random::new(32);
    let mut histogram = Histogram::new();
    for _ in 0..CALLS {
        let call = generator::writer_call(&mut random);
        let (chip, What::Append(element, part)) = (call.chip, call.what) else {
            continue;
        };
        let fixed = layout::fixed(&element);
        let body = [&fixed.bytes()[3..], &part].concat();
        if !kind_fits(&element) || body.len() > 4077 || call.pins != chip {
            continue;
        }
        let mut buffer = raw::TABLE_A.to_vec();
        buffer.resize(4096, 0);
        let answer = second::append(&mut buffer, chip, &element, &part);
        let table = raw::table(&[raw::element(element.identifier(), &body)]);
        let number = match answer {
            Ok(_) => 0,
            Err(Refusal { number: 25, .. }) => continue,
            Err(refusal) => refusal.number,
        };
        let read = match second::check(&table, chip.into()) {
            Verdict::Refused { number, place: 16 } if matches!(number, 6..=12 | 23) => number,
            _ => 0,
        };
        assert_eq!(number, read, "{element:?} {part:02X?}");
        histogram.add(number);
    }
    only(&histogram, &[0, 8, 9, 10, 23]);
}

fn plain_description() -> Description {
    read_description(&raw::TABLE_A, Chip::F320)
}

#[test]
fn start_checks_1_25_4_5_10_in_this_order() {
    let mut record = plain_description();
    record.hardware[2] = pin(0x31);
    let mut buffer = [0xA5; 16];
    assert_eq!(start(&mut buffer, &record), Err(Refusal::at(10, 0)));
    record.self_powered = false;
    record.power = FourMilliamps(126);
    assert_eq!(start(&mut buffer, &record), Err(Refusal::at(5, 0)));
    record.device_type = 4;
    assert_eq!(start(&mut buffer, &record), Err(Refusal::at(4, 0)));
    record.serial = 0x100_0000;
    assert_eq!(start(&mut buffer, &record), Err(Refusal::at(25, 0)));
    assert_eq!(start(&mut buffer[..15], &record), Err(Refusal::at(1, 0)));
    assert_eq!(buffer, [0xA5; 16]);
}

#[test]
fn start_at_the_edges_of_its_fields() {
    let mut buffer = [0xA5; 20];
    for (power, self_powered, wanted) in [
        (125, false, Ok(16)),
        (126, false, Err(Refusal::at(5, 0))),
        (127, false, Err(Refusal::at(5, 0))),
        (128, false, Err(Refusal::at(25, 0))),
        (127, true, Ok(16)),
        (128, true, Err(Refusal::at(25, 0))),
    ] {
        let mut record = plain_description();
        record.power = FourMilliamps(power);
        record.self_powered = self_powered;
        assert_eq!(start(&mut buffer, &record), wanted, "{power}");
    }
    let mut record = plain_description();
    record.serial = 0xFF_FFFF;
    assert_eq!(start(&mut buffer, &record), Ok(16));
    assert_eq!(buffer[5..8], [0xFF; 3]);
    assert_eq!(buffer[16..], [0xA5; 4]);
    // Clashes and missing strings are the reader's to refuse.
    record.hardware = [pin(0x10); 3];
    record.string = 9;
    assert_eq!(start(&mut buffer, &record), Ok(16));
}

/// The record and part of one element as it would stand in a table.
fn record(bytes: &[u8]) -> (Element, Vec<u8>) {
    let (element, part) = read_element(bytes, Chip::F320).unwrap();
    (element, part.to_vec())
}

/// Table A in a buffer of this size, the rest A5h.
fn buffer(size: usize, length: usize) -> Vec<u8> {
    let mut buffer = raw::TABLE_A.to_vec();
    buffer.resize(size, 0xA5);
    if size >= 3 {
        buffer[1..3].copy_from_slice(&(length as u16).to_le_bytes());
    }
    buffer
}

#[test]
fn append_checks_1_3_25_8_9_10_16_in_this_order() {
    let Element::StatusLed(mut led) = record(&raw::led(1, [0x31, 0xFF, 0xFF])).0 else {
        panic!("no LED");
    };
    let call = |led: StatusLed, part: &[u8], size: usize, length: usize| {
        append(&mut buffer(size, length), &Element::StatusLed(led), part)
    };
    assert_eq!(call(led, &[], 18, 18), Err(Refusal::at(10, 18)));
    led.lights[0].colour = 15;
    assert_eq!(call(led, &[], 18, 18), Err(Refusal::at(9, 18)));
    assert_eq!(call(led, &[0], 18, 18), Err(Refusal::at(8, 18)));
    led.lights[2].purpose = 16;
    assert_eq!(call(led, &[0], 18, 18), Err(Refusal::at(25, 0)));
    assert_eq!(call(led, &[0], 18, 19), Err(Refusal::at(3, 0)));
    assert_eq!(call(led, &[0], 15, 19), Err(Refusal::at(1, 0)));
    led.lights = [led.lights[1]; 3];
    assert_eq!(call(led, &[], 18, 18), Err(Refusal::at(16, 0)));
}

#[test]
fn length_so_far_and_room() {
    let (led, part) = record(&raw::led(1, [0xFF; 3]));
    let call = |size, length| append(&mut buffer(size, length), &led, &part);
    assert_eq!(call(100, 15), Err(Refusal::at(3, 0)));
    assert_eq!(call(100, 16), Ok(30));
    assert_eq!(call(30, 16), Ok(30));
    assert_eq!(call(29, 16), Err(Refusal::at(16, 0)));
    assert_eq!(call(100, 86), Ok(100));
    assert_eq!(call(100, 87), Err(Refusal::at(16, 0)));
    assert_eq!(call(100, 100), Err(Refusal::at(16, 0)));
    assert_eq!(call(100, 101), Err(Refusal::at(3, 0)));
    assert_eq!(call(5000, 4082), Ok(4096));
    assert_eq!(call(5000, 4083), Err(Refusal::at(16, 0)));
    assert_eq!(call(5000, 4096), Err(Refusal::at(16, 0)));
    assert_eq!(call(5000, 4097), Err(Refusal::at(3, 0)));
    assert_eq!(call(70_000, 65_535), Err(Refusal::at(3, 0)));
}

#[test]
fn append_looks_at_bytes_1_and_2_only() {
    let (fan, part) = record(&raw::FAN_F);
    let mut junk = vec![0xEE; 64];
    junk[1..3].copy_from_slice(&[20, 0]);
    assert_eq!(append(&mut junk, &fan, &part), Ok(36));
    assert_eq!(junk[20..36], raw::FAN_F);
    assert_eq!(junk[3..20], [0xEE; 17]);
}

/// 97 elements, 13 zones, numbers twice, clashes: all are the reader's to refuse.
#[test]
fn append_never_gives_7_or_11_to_15() {
    for element in [raw::FAN_F.to_vec(), raw::zone(1, 9), raw::text(7, &[])] {
        let (record, part) = record(&element);
        let mut buffer = buffer(4096, 16);
        for _ in 0..98 {
            append(&mut buffer, &record, &part).unwrap();
        }
    }
}

#[test]
fn a_part_beside_an_element_without_one_is_8() {
    for element in [
        raw::digital(1, 0, 0x90),
        raw::analogue(1, 0x20),
        raw::fan(1, 5, 6),
        raw::led(1, [0xFF; 3]),
        raw::current(1, 0x20),
        raw::rgb(1, 5, 6, 0x11),
        raw::water(1, 0x20),
        raw::pump(1, 5, 6),
        raw::voltage(1, 0x20),
    ] {
        let (element, part) = record(&element);
        assert!(part.is_empty());
        let mut buffer = buffer(100, 16);
        assert_eq!(append(&mut buffer, &element, &[0]), Err(Refusal::at(8, 16)));
        assert!(append(&mut buffer, &element, &[]).is_ok());
    }
}

#[test]
fn parts_that_fit_no_layout_are_8() {
    let (controller, _) = record(&raw::CONTROLLER_C);
    let (tachometer, _) = record(&raw::tachometer(1, 0, 0x40, 0, 0));
    let call = |element: &Element, part: &[u8]| append(&mut buffer(200, 16), element, part);
    for part in [&[][..], &[5], &[5, 1], &[5, 1, 0, 0, 0], &[5, 0].repeat(7)] {
        assert_eq!(call(&controller, part), Err(Refusal::at(8, 16)));
    }
    assert_eq!(
        call(&controller, &[5, 0].repeat(6)),
        Err(Refusal::at(9, 16))
    );
    for part in [&[][..], &[0], &[1, 0], &[0, 0, 0]] {
        assert_eq!(call(&tachometer, part), Err(Refusal::at(8, 16)));
    }
    assert_eq!(call(&tachometer, &[0, 0]), Ok(30));
    for length in 0..40 {
        let part = vec![1; length];
        let zone = call(&Element::Zone(Zone), &part);
        assert_eq!(zone.is_ok(), length == 27);
        let text = call(&Element::Text(Text), &part);
        assert_eq!(text.is_ok(), length >= 3 && length % 2 == 1);
    }
    assert_eq!(
        call(&Element::Text(Text), &[0, 9, 4]),
        Err(Refusal::at(9, 16))
    );
    assert_eq!(call(&Element::Text(Text), &[0, 9]), Err(Refusal::at(8, 16)));
}

#[test]
fn a_string_too_long_for_a_two_byte_length_is_16() {
    let mut lent = buffer(70_000, 16);
    // 9 comes before 16: a length that makes the text odd.
    for length in [4077, 4078, 4079, 65_532, 65_533, 65_537, 69_001] {
        let wanted = match length {
            4077 => Ok(4096),
            _ if length % 2 == 0 => Err(Refusal::at(9, 16)),
            _ => Err(Refusal::at(16, 0)),
        };
        let answer = append(&mut lent, &Element::Text(Text), &vec![1; length]);
        assert_eq!(answer, wanted, "{length}");
        lent = buffer(70_000, 16);
    }
}

fn controller(bus_type: u8, address: Address) -> Element {
    let (Element::Controller(mut record), _) = record(&raw::CONTROLLER_C) else {
        panic!("no controller");
    };
    record.attachment = Attachment { bus_type, address };
    Element::Controller(record)
}

#[test]
fn addresses_of_the_other_kind_are_9_and_too_large_ones_25() {
    let call = |bus_type, address| {
        let part = [5, 1, 7, 0, 12, 0];
        append(&mut buffer(100, 16), &controller(bus_type, address), &part)
    };
    let bus = Address::Bus;
    let select = |byte| Address::Select(pin(byte));
    assert_eq!(call(0, bus(0x7F)), Ok(33));
    assert_eq!(call(0, bus(0x80)), Err(Refusal::at(25, 0)));
    assert_eq!(call(3, bus(0x80)), Err(Refusal::at(25, 0)));
    assert_eq!(call(3, bus(0x0A)), Err(Refusal::at(9, 16)));
    assert_eq!(call(2, bus(0x7F)), Err(Refusal::at(23, 16)));
    assert_eq!(call(2, select(0x14)), Err(Refusal::at(9, 16)));
    assert_eq!(call(2, select(0x31)), Err(Refusal::at(9, 16)));
    assert_eq!(call(3, select(0x14)), Ok(33));
    assert_eq!(call(3, select(0x31)), Err(Refusal::at(10, 16)));
    assert_eq!(call(3, select(0xFF)), Err(Refusal::at(10, 16)));
    assert_eq!(call(15, bus(0)), Err(Refusal::at(9, 16)));
    assert_eq!(call(15, select(0x31)), Err(Refusal::at(9, 16)));
    assert_eq!(call(16, bus(0)), Err(Refusal::at(25, 0)));
    assert_eq!(call(255, select(0x14)), Err(Refusal::at(25, 0)));
}

#[test]
fn thermal_type_and_calibration() {
    let (Element::AnalogueSensor(good), _) = record(&raw::analogue(1, 0x20)) else {
        panic!("no sensor");
    };
    let call = |sensor| append(&mut buffer(100, 16), &Element::AnalogueSensor(sensor), &[]);
    for (thermal_type, number) in [(0, 9), (1, 0), (2, 9), (15, 9), (16, 25), (255, 25)] {
        let answer = call(AnalogueSensor {
            thermal_type,
            ..good
        });
        assert_eq!(answer.map_or_else(|r| r.number, |_| 0), number);
    }
    for place in 0..5 {
        for (value, good_one) in [(1023, true), (1024, false), (65_535, false)] {
            let mut sensor = good;
            sensor.calibration[place] = value;
            let wanted = if good_one {
                Ok(36)
            } else {
                Err(Refusal::at(9, 16))
            };
            assert_eq!(call(sensor), wanted);
        }
    }
}

#[test]
fn colours_and_purposes_beside_unused_pins() {
    let (Element::StatusLed(dark), _) = record(&raw::led(1, [0xFF; 3])) else {
        panic!("no LED");
    };
    let call = |led| append(&mut buffer(100, 16), &Element::StatusLed(led), &[]);
    for value in 0..=255u8 {
        let wanted = if value < 16 {
            Ok(30)
        } else {
            Err(Refusal::at(25, 0))
        };
        for place in 0..3 {
            let mut led = dark;
            led.lights[place].colour = value;
            assert_eq!(call(led), wanted);
            let mut led = dark;
            led.lights[place].purpose = value;
            assert_eq!(call(led), wanted);
        }
    }
}
