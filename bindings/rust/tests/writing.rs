//! What is read of a table is written again from it, record by record; and what is refused alters no byte.

mod common;

use esa::{append, check, describe, fields, part, remove, rewrite, start, Chip, Kind, Numbers, Rule, Settings};

const CHIP: Chip = Chip::C8051F320;

/// A table built again from the records of another.
fn built_again(table: &[u8]) -> Vec<u8> {
    let settings = Settings::ordinary(CHIP);
    let count = check(table, settings).unwrap();
    let mut buffer = [0xEE; esa::LONGEST];
    let mut length = start(&mut buffer, CHIP, &describe(table, settings).unwrap()).unwrap();
    for k in 0..count {
        let (kind, mut numbers) = fields(table, k, settings).unwrap();
        if kind == Kind::Zone || kind == Kind::String {
            numbers = Numbers::new(); // their part is the whole record
        }
        let part = part(table, k, settings).unwrap();
        length = append(&mut buffer, kind, CHIP, &numbers, &table[part]).unwrap();
    }
    assert!(buffer[length..].iter().all(|&byte| byte == 0xEE), "a byte behind the table altered");
    buffer[..length].to_vec()
}

#[test]
fn a_table_built_again_is_the_one_rewritten() {
    for (name, table) in common::accepted() {
        let mut out = vec![0xEE; table.len()];
        assert_eq!(rewrite(&table, CHIP, &mut out), Ok(table.len()), "{name}");
        assert_eq!(built_again(&table), out, "{name}");
    }
}

#[test]
fn a_refusal_of_the_writer_alters_no_byte() {
    let mut buffer = [0xEE; 40];
    let too_strong = Numbers::new().byte(0, 2).byte(7, 126).bytes(8, [esa::UNUSED_PIN; 3]);
    assert_eq!(start(&mut buffer, CHIP, &too_strong).unwrap_err().rule, Rule::Power);
    assert_eq!(start(&mut buffer[..15], CHIP, &too_strong).unwrap_err().rule, Rule::Under16Bytes);
    assert_eq!(buffer, [0xEE; 40]);
    let modest = too_strong.byte(7, 25);
    start(&mut buffer, CHIP, &modest).unwrap();
    let before = buffer;
    let zone = [1; 27];
    assert_eq!(append(&mut buffer, Kind::Zone, CHIP, &Numbers::new(), &zone).unwrap_err().rule, Rule::NoRoom);
    assert_eq!(append(&mut buffer, Kind::Fan, CHIP, &Numbers::new(), &zone).unwrap_err().rule, Rule::Layout);
    assert_eq!(buffer, before);
}

#[test]
fn a_pin_of_the_other_chip_is_refused() {
    let mut buffer = [0; 64];
    let description = Numbers::new().byte(0, 2).bytes(8, [0x00, 0xFF, 0xFF]).byte(31, 1);
    assert_eq!(start(&mut buffer, CHIP, &description).unwrap_err().rule, Rule::Pin);
    assert_eq!(start(&mut buffer, Chip::C8051F321, &description), Ok(16));
}

#[test]
fn every_element_goes_or_is_still_named() {
    let table = common::table("quiet-box");
    let mut gone = 0;
    for k in 0..15 {
        let mut less = table.clone();
        match remove(&mut less, k, CHIP) {
            Ok(length) => {
                gone += 1;
                assert_eq!(check(&less[..length], Settings::default()), Ok(14), "without {k}");
                assert_eq!(less[length..], table[length..], "behind the table without {k}");
            }
            Err(refusal) => {
                assert_eq!(refusal.rule, Rule::StillNamed, "{k}");
                assert_eq!(less, table, "{k} is still named");
            }
        }
    }
    assert_eq!(gone, 5, "fans, sensors and the lamp, and no zone or string");
    assert_eq!(remove(&mut table.clone(), 15, CHIP).unwrap_err().rule, Rule::PastTheLast);
}
