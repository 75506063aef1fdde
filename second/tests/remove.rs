//! Taking a part out: element k leaves the table, unless something still names it.


use crate::common::{with, zoned};
use second::generator::raw::{self, Parts, TABLE_A};
use second::generator::{any, mixed_of, only_in_the_archive, targeted, valid};
use second::random::Random;
use second::{plain, remove, Chip, Refusal, Verdict};

/// What the call answers, and the lent bytes as it leaves them.
fn removed(table: &[u8], k: usize, chip: Chip) -> (Result<usize, Refusal>, Vec<u8>) {
    let mut lent = table.to_vec();
    (remove(&mut lent, k, chip), lent)
}

/// On both chips element k goes: these are left, and behind them are the bytes that stood there.
#[track_caller]
fn goes(elements: &[Vec<u8>], k: usize) {
    goes_from(&Parts::of(elements), k);
}

#[track_caller]
fn goes_from(parts: &Parts, k: usize) {
    let table = parts.bytes();
    let mut left = parts.clone();
    left.elements.remove(k);
    let mut wanted = left.bytes();
    let length = wanted.len();
    wanted.extend_from_slice(&table[length..]);
    for chip in Chip::BOTH {
        let (answer, lent) = removed(&table, k, chip);
        assert_eq!(answer, Ok(length), "element {k} of {table:02X?}");
        assert_eq!(lent, wanted, "element {k} of {table:02X?}");
        let verdict = second::check(&lent[..length], chip.into());
        assert_eq!(verdict, Verdict::Accepted(left.elements.len()));
    }
}

/// On both chips this refusal, and no byte altered.
#[track_caller]
fn refuses(table: &[u8], k: usize, number: u8, place: usize) {
    for chip in Chip::BOTH {
        let wanted = (Err(Refusal::at(number, place)), table.to_vec());
        assert_eq!(removed(table, k, chip), wanted, "element {k}");
    }
}

/// Table A whose description names this string.
fn described(string: u8, elements: &[Vec<u8>]) -> Parts {
    let mut parts = Parts::of(elements);
    parts.description[4] = string;
    parts
}

#[test]
fn past_the_last() {
    refuses(&TABLE_A, 0, 17, 0);
    let table = zoned(&[raw::FAN_F.to_vec()]);
    for k in [2, 3, 96, 256, usize::MAX] {
        refuses(&table, k, 17, 0);
    }
}

/// Every kind but zones and strings goes, whatever it names, from the front, the middle and the end.
#[test]
fn every_kind_of_device() {
    let devices = [
        raw::digital(1, 0, 0x40),
        raw::analogue(1, 0x14),
        raw::fan(1, 0x05, 0xFF),
        raw::led(1, [0x15, 0x16, 0xFF]),
        raw::water(1, 0x17),
        raw::pump(1, 0x06, 0xFF),
        raw::voltage(1, 0x20),
        raw::current(1, 0x21),
        raw::controller(1, 3, 0x22, &[1, 2]),
        raw::tachometer(1, 3, 0x23, 1, 2),
        raw::external(1, 0, 0x42, [0, 1, 2]),
        raw::rgb(1, 0x11, 0x12, 0x13),
    ];
    let mut elements: Vec<Vec<u8>> = devices.iter().map(|d| with(&[(3, 7)], d.clone())).collect();
    elements.insert(5, raw::zone(1, 7));
    elements.insert(9, raw::text(7, b"name"));
    for k in (0..elements.len()).filter(|k| ![5, 9].contains(k)) {
        goes(&elements, k);
    }
    refuses(&raw::table(&elements), 5, 22, 16 + 21 + 20 + 16 + 14 + 15);
    for device in devices {
        let alone = [device, raw::zone(1, 0)];
        goes(&alone, 0);
        refuses(&raw::table(&alone), 1, 22, 16 + alone[0].len());
    }
}

/// A zone is named by any element but zones and strings, and by its number alone; it stands where it may.
#[test]
fn zones() {
    goes(&[raw::zone(1, 0)], 0);
    goes(
        &[raw::zone(1, 0), raw::zone(2, 0), raw::fan(2, 0x05, 0xFF)],
        0,
    );
    let both = raw::table(&[raw::zone(1, 0), raw::zone(2, 0), raw::fan(2, 0x05, 0xFF)]);
    refuses(&both, 1, 22, 46);
    // Zone 0 is a zone like any other, and so is 255.
    for number in [0, 1, 2, 254, 255] {
        let lamp = raw::led(number, [0xFF; 3]);
        refuses(
            &raw::table(&[raw::zone(number, 0), lamp.clone()]),
            0,
            22,
            16,
        );
        refuses(
            &raw::table(&[lamp.clone(), raw::zone(number, 0)]),
            1,
            22,
            30,
        );
        goes(
            &[
                lamp,
                raw::zone(number, 0),
                raw::zone(number.wrapping_add(1), 0),
            ],
            2,
        );
    }
}

/// The zone identifier is byte 7, and of zones and strings that byte is content.
#[test]
fn what_names_no_zone() {
    for number in [0, 1, 9] {
        let bytes: Vec<(usize, u8)> = (4..30).map(|at| (at, number)).collect();
        let named = raw::text(number.max(1), b"");
        let full = with(&bytes, raw::zone(number, 0));
        let full = with(&[(4, 0)], full);
        goes(&[full.clone(), named.clone()], 0);
        let other = with(&[(3, number + 1)], full);
        goes(&[raw::zone(number, 0), other.clone(), named.clone()], 0);
        goes(&[other, raw::zone(number, 0), named], 1);
    }
    // Byte 7 of a string is text, and an empty one has none.
    goes(&[raw::zone(1, 0), raw::text(1, &[1, 1])], 0);
    goes(&[raw::zone(1, 0), raw::text(1, b"")], 0);
    // String index, position and pins of an element are no zone identifiers; nor is the description's string.
    let lamp = with(&[(4, 9), (5, 9), (6, 9)], raw::led(2, [0x14, 0xFF, 0xFF]));
    goes(&[raw::zone(9, 0), lamp, raw::zone(2, 0)], 0);
    goes_from(&described(9, &[raw::zone(9, 0), raw::text(9, b"")]), 0);
}

/// A string is named by the description, by elements and by zone descriptors.
#[test]
fn strings() {
    goes(&[raw::text(1, b"name")], 0);
    refuses(&described(1, &[raw::text(1, b"name")]).bytes(), 0, 22, 16);
    goes_from(
        &described(2, &[raw::text(1, b"name"), raw::text(2, b"")]),
        0,
    );
    let by_zone = raw::table(&[raw::zone(1, 5), raw::text(5, b"")]);
    refuses(&by_zone, 1, 22, 46);
    goes(&[raw::zone(1, 5), raw::text(5, b"")], 0);
    goes(&[raw::zone(1, 0), raw::text(5, b"")], 1);
    for number in [1, 2, 254, 255] {
        let lamp = with(&[(3, number)], raw::led(1, [0xFF; 3]));
        let table = zoned(&[raw::text(number, b"name"), lamp.clone()]);
        refuses(&table, 1, 22, 46);
        let table = zoned(&[lamp, raw::text(number, b"name")]);
        refuses(&table, 2, 22, 60);
    }
}

/// Numbers of zones, zone identifiers, positions and what stands in other strings name no string.
#[test]
fn what_names_no_string() {
    goes(&[raw::text(1, b""), raw::zone(1, 0)], 0);
    goes(
        &[raw::zone(1, 0), raw::led(1, [0xFF; 3]), raw::text(1, b"")],
        2,
    );
    let lamp = with(&[(4, 9), (5, 9), (6, 9)], raw::led(9, [0xFF; 3]));
    goes(&[raw::zone(9, 0), lamp, raw::text(9, b"")], 2);
    goes(&[raw::text(4, b""), raw::text(9, &[4, 4])], 0);
    let locale = with(&[(4, 4), (5, 4)], raw::text(9, b""));
    goes(&[locale, raw::text(4, b"")], 1);
    let curve: Vec<(usize, u8)> = (5..30).map(|at| (at, 9)).collect();
    goes(&[with(&curve, raw::zone(1, 0)), raw::text(9, b"")], 1);
}

/// The reader's refusal goes first, by the ordinary rules; then 17; then 22.
#[test]
fn refusals() {
    refuses(&[], 0, 1, 0);
    refuses(&TABLE_A[..15], 0, 1, 0);
    for k in [0, 1, 2, usize::MAX] {
        refuses(&raw::table(&[raw::FAN_F.to_vec()]), k, 13, 16);
        let longer = [zoned(&[raw::FAN_F.to_vec()]), vec![0]].concat();
        refuses(&longer, k, 3, 0);
        let retired = zoned(&[raw::digital(1, 2, 0x40)]);
        refuses(&retired, k, 23, 46);
    }
    // What would mend a table is no ground to take it: both zones are number 1.
    let twice = raw::table(&[raw::zone(1, 0), raw::zone(1, 0)]);
    refuses(&twice, 1, 12, 46);
    let large = zoned(&[raw::FAN_F.to_vec(), raw::current(1, 0x24)]);
    let (answer, lent) = removed(&large, 2, Chip::F321);
    assert_eq!((answer, lent), (Err(Refusal::at(10, 62)), large.clone()));
    assert_eq!(removed(&large, 2, Chip::F320).0, Ok(62));
}

/// Reserved places go along as they stand, and the bytes behind are neither cleared nor shifted.
#[test]
fn bytes_as_they_stand() {
    let sensor = with(&[(8, 0xF0), (9, 0x41), (10, 0xA5)], raw::digital(1, 0, 0));
    let mut parts = Parts::of(&[raw::zone(1, 0), raw::FAN_F.to_vec(), sensor]);
    parts.description[12..].fill(0x5A);
    goes_from(&parts, 1);
    goes_from(&parts, 2);
    let table = parts.bytes();
    let (answer, lent) = removed(&table, 1, Chip::F320);
    assert_eq!(answer, Ok(67));
    assert_eq!(lent[67..], table[67..]);
    assert_eq!(lent[46..67], table[62..]);
}

/// From 4,096 bytes, and from 96 elements, one at each place; the high byte of the length falls too.
#[test]
fn full_tables() {
    let mut elements = vec![raw::led(1, [0xFF; 3]); 96];
    elements[40] = raw::zone(1, 0);
    for k in (0..96).filter(|&k| k != 40) {
        goes(&elements, k);
    }
    let long = raw::text(1, &[0; 4096 - 16 - 30 - 14 - 6]);
    let elements = [long, raw::zone(1, 0), raw::led(1, [0xFF; 3])];
    assert_eq!(raw::table(&elements).len(), 4096);
    goes(&elements, 0);
    goes(&elements, 2);
    let over_256 = [raw::text(1, &[0; 210]), raw::zone(1, 0)];
    assert_eq!(raw::table(&over_256).len(), 262);
    goes(&over_256, 0);
    goes(&over_256, 1);
}

/// Every element of a table, and some past the last, as the plain form has it: put together without the element, and
/// the reader asked. So 22 is given exactly when the closed-up table would be refused, and then it is 13 or 14.
fn as_put_together(table: &[u8], chip: Chip, met: &mut [usize; 3]) {
    let count = match second::check(table, chip.into()) {
        Verdict::Accepted(count) => count,
        Verdict::Refused { .. } => 0,
    };
    for k in (0..count + 2).chain([usize::MAX]) {
        let (answer, lent) = removed(table, k, chip);
        let plain = plain::remove(table, k, chip);
        let wanted = plain.clone().map_or(table.to_vec(), |(_, bytes)| bytes);
        assert_eq!(answer, plain.map(|(length, _)| length), "{k}: {table:02X?}");
        assert_eq!(lent, wanted, "{k}: {table:02X?}");
        match answer {
            Ok(length) => same_records(table, &lent[..length], k, chip),
            Err(Refusal { number: 22, place }) => {
                let length = u16::from_le_bytes([table[place + 1], table[place + 2]]);
                let behind = place + usize::from(length);
                let mut closed = [&table[..place], &table[behind..]].concat();
                raw::mend(&mut closed);
                let verdict = second::check(&closed, chip.into());
                assert!([13, 14].contains(&verdict.number()), "{k}: {table:02X?}");
            }
            Err(_) => (),
        }
        met[match answer {
            Ok(_) => 0,
            Err(Refusal { number: 22, .. }) => 1,
            Err(_) => 2,
        }] += 1;
    }
}

/// The records of a table are those of the one that it was, in the same order, but for element k.
fn same_records(before: &[u8], after: &[u8], k: usize, chip: Chip) {
    let records = |table: &[u8]| -> Vec<_> {
        let found = plain::elements(table, chip.into()).unwrap();
        found
            .iter()
            .map(|one| (one.element, one.part.to_vec()))
            .collect()
    };
    let mut wanted = records(before);
    wanted.remove(k);
    assert_eq!(records(after), wanted);
    let description = |table: &[u8]| second::description(table, chip.into()).unwrap();
    assert_eq!(description(after), description(before));
}

#[test]
fn as_put_together_without_it() {
    let mut random = Random::new(1314);
    let mut met = [0; 3];
    for at in 0..400 {
        let chip = Chip::BOTH[at % 2];
        as_put_together(&valid(&mut random, chip.into()), chip, &mut met);
        as_put_together(&any(&mut random, chip.into()), chip, &mut met);
        as_put_together(&only_in_the_archive(&mut random, chip), chip, &mut met);
    }
    for elements in 1..=96 {
        let chip = Chip::BOTH[elements % 2];
        let table = mixed_of(&mut random, elements, chip.into());
        as_put_together(&table, chip, &mut met);
    }
    for (at, (_, table)) in targeted().iter().enumerate() {
        as_put_together(table, Chip::BOTH[at % 2], &mut met);
    }
    assert!(met.iter().all(|&count| count > 1000), "{met:?}");
}

/// Taken out again and again, a table comes down to what the description names: what nothing names first.
#[test]
fn down_to_the_description() {
    let mut random = Random::new(1413);
    for at in 0..200 {
        let chip = Chip::BOTH[at % 2];
        let mut table = valid(&mut random, chip.into());
        let mut k = 0;
        loop {
            match remove(&mut table, k, chip) {
                Ok(length) => {
                    table.truncate(length);
                    k = 0;
                }
                Err(Refusal { number: 22, .. }) => k += 1,
                Err(refusal) => {
                    assert_eq!(refusal, Refusal::at(17, 0));
                    break;
                }
            }
        }
        let left: Vec<u8> = raw::cut(&table).map(|element| element[3]).collect();
        let named = Some(table[4]).filter(|&string| string != 0);
        assert_eq!(left, named.into_iter().collect::<Vec<u8>>());
    }
}
