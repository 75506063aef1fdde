//! Labels: the text of an element's string, or the lent name, no byte copied.


use crate::common::{with, zoned, ARCHIVE, ON_320, ON_321};
use second::generator::raw;
use second::generator::{any, targeted, valid};
use second::random::Random;
use second::{label, label_place, plain, text, Lent, Refusal, Settings};

const NAME: &[u8] = b"no name";

/// Zone 1 without a string and zone 2 with string 9; a fan with string 8, an LED without one; strings 8, 9 and
/// an empty 10, and an LED that has it.
fn table() -> Vec<u8> {
    raw::table(&[
        raw::zone(1, 0),                          // 16
        raw::zone(2, 9),                          // 46
        with(&[(3, 8)], raw::fan(1, 0x05, 0x06)), // 76
        raw::led(1, [0xFF; 3]),                   // 92
        raw::text(8, b"eighth"),                  // 106
        raw::text(9, b"nine"),                    // 118
        raw::text(10, b""),                       // 128
        with(&[(3, 10)], raw::led(1, [0xFF; 3])), // 134
    ])
}

#[test]
fn of_each_element() {
    let table = table();
    let [eighth, nine] = [(Lent::Table, 112..118), (Lent::Table, 124..128)];
    let name = (Lent::Name, 0..7);
    // An empty text is a part of the table, and not the name.
    let empty = (Lent::Table, 134..134);
    let wanted = [&name, &nine, &eighth, &name, &eighth, &nine, &empty, &empty];
    let texts: [&[u8]; 8] = [NAME, b"nine", b"eighth", NAME, b"eighth", b"nine", b"", b""];
    for (k, (wanted, text)) in wanted.into_iter().zip(texts).enumerate() {
        assert_eq!(
            label_place(&table, k, ON_320, 7).as_ref(),
            Ok(wanted),
            "{k}"
        );
        assert_eq!(label(&table, k, ON_320, NAME), (text, Ok(())), "{k}");
        assert_eq!(plain::label(&table, k, ON_320, NAME), Ok(text));
    }
}

/// The parts are the lent bytes themselves.
#[test]
fn no_byte_is_copied() {
    let table = table();
    let name = NAME.to_vec();
    let of = |k| label(&table, k, ON_320, &name).0.as_ptr();
    assert_eq!(of(0), name.as_ptr());
    assert_eq!(of(2), table[112..].as_ptr());
    assert_eq!(of(6), table[134..].as_ptr());
}

/// The lent name is not looked at: empty, odd, malformed and long ones come back as they are.
#[test]
fn any_name() {
    let table = table();
    let long = vec![0xD8; 70_000];
    for name in [&[][..], &[0], &[0x00, 0xD8], &long] {
        assert_eq!(label(&table, 0, ON_320, name), (name, Ok(())));
        let place = label_place(&table, 3, ON_320, name.len());
        assert_eq!(place, Ok((Lent::Name, 0..name.len())));
    }
}

/// The reader's refusal, then 17 at 0, both with an empty part.
#[test]
fn refusals() {
    let refused = |table: &[u8], k, settings, refusal| {
        assert_eq!(label(table, k, settings, NAME), (&[][..], Err(refusal)));
        assert_eq!(label_place(table, k, settings, 7), Err(refusal));
        assert_eq!(plain::label(table, k, settings, NAME), Err(refusal));
    };
    let good = table();
    for k in [8, 9, 96, 1 << 40, usize::MAX] {
        refused(&good, k, ON_320, Refusal::at(17, 0));
    }
    refused(&raw::TABLE_A, 0, ON_320, Refusal::at(17, 0));
    refused(&[], 0, ON_320, Refusal::at(1, 0));
    let nameless = zoned(&[with(&[(3, 9)], raw::led(1, [0xFF; 3]))]);
    refused(&nameless, 0, ON_320, Refusal::at(14, 46));
    refused(&nameless, 9, ON_320, Refusal::at(14, 46));
    let malformed = raw::table(&[raw::text(7, &[0x00, 0xD8])]);
    refused(&malformed, 0, ON_320, Refusal::at(9, 16));
    // By the caller's settings.
    let four = zoned(&[raw::current(1, 0x24)]);
    refused(&four, 1, ON_321, Refusal::at(10, 46));
    assert_eq!(label(&four, 1, ON_320, NAME).1, Ok(()));
    let retired = zoned(&[raw::digital(1, 2, 0x40)]);
    refused(&retired, 1, ON_320, Refusal::at(23, 46));
    assert_eq!(label(&retired, 1, ARCHIVE, NAME), (NAME, Ok(())));
}

/// Whatever the table: as from its records; and what comes from the table is well-formed.
#[test]
fn as_from_the_records() {
    let mut random = Random::new(74);
    let mut counts = [0; 2];
    let mut hold = |table: &[u8], settings: Settings| {
        let count = second::check(table, settings).beside().min(96);
        for k in [0, 1, count / 2, count.saturating_sub(1), count] {
            let (found, answer) = label(table, k, settings, NAME);
            let from_records = plain::label(table, k, settings, NAME);
            assert_eq!(answer.map(|()| found), from_records, "{k}: {table:02X?}");
            if let Ok((lent, _)) = label_place(table, k, settings, 7) {
                counts[lent as usize] += 1;
                assert!(lent == Lent::Name || text::well_formed(found));
            }
        }
    };
    for at in 0..5_000 {
        let settings = Settings::ALL[at % 4];
        hold(&valid(&mut random, settings), settings);
        hold(&any(&mut random, settings), settings);
    }
    for (at, (_, table)) in targeted().iter().enumerate() {
        hold(table, Settings::ALL[at % 4]);
    }
    assert!(counts.iter().all(|&count| count > 5_000), "{counts:?}");
}
