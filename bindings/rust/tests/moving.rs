//! To Intel HEX and back.

mod common;

use esa::{hex, unhex, Chip, Rule};

const CHIP: Chip = Chip::C8051F320;

#[test]
fn there_and_back_is_the_same() {
    for (name, table) in common::accepted() {
        let mut text = [0; esa::LONGEST_TEXT];
        let length = hex(&table, CHIP, &mut text).unwrap();
        let mut back = vec![0; table.len()];
        assert_eq!(unhex(&text[..length], CHIP, &mut back), Ok(table.len()), "{name}");
        assert_eq!(back, table, "{name}");
    }
}

#[test]
fn what_has_no_room_is_not_written() {
    let table = common::table("quiet-box");
    let text = common::words("tables/quiet-box.hex");
    let mut out = vec![7; text.len() - 1];
    assert_eq!(hex(&table, CHIP, &mut out).unwrap_err().rule, Rule::NoRoom);
    let mut back = vec![7; table.len() - 1];
    assert_eq!(unhex(text.as_bytes(), CHIP, &mut back).unwrap_err().rule, Rule::NoRoom);
    assert!(out.iter().chain(&back).all(|&byte| byte == 7));
}

#[test]
fn a_bad_line_is_named() {
    let text = common::words("tables/quiet-box.hex");
    let mut out = [0; esa::LONGEST];
    for line in 1..=text.lines().count() {
        let bad: String = text.lines().enumerate().map(|(i, l)| format!("{l}{}\n", if i + 1 == line { " " } else { "" })).collect();
        let refusal = unhex(bad.as_bytes(), CHIP, &mut out).unwrap_err();
        assert_eq!((refusal.rule, refusal.place), (Rule::Hex, line));
    }
    assert_eq!(unhex(b"", CHIP, &mut out).unwrap_err().place, 1);
}
