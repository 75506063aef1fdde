//! Every sample table answers as the text beside it says.

mod common;

use esa::{check, diff, list, sheet, sheet_text, Chip, Settings, Sheet};

/// The answer as `./esa check` begins its line.
fn answer(table: &[u8], settings: Settings) -> String {
    match check(table, settings) {
        Ok(1) => "ok, 1 element".to_string(),
        Ok(count) => format!("ok, {count} elements"),
        Err(refusal) => format!("{} at {}:", refusal.number(), refusal.place),
    }
}

#[test]
fn check_answers_as_the_texts_say() {
    for name in common::names() {
        let told = common::told(&name, &format!("./esa check tables/{name}.esa"));
        let answer = answer(&common::table(&name), Settings::default());
        assert!(told.starts_with(&format!("tables/{name}.esa: {answer}")), "{name}: {answer}, and its text: {told}");
    }
}

#[test]
fn check_answers_for_the_smaller_chip_and_the_archive() {
    let smaller = common::told("larger-chip", "./esa check --chip 321 tables/larger-chip.esa");
    let table = common::table("larger-chip");
    assert!(smaller.starts_with(&format!("tables/larger-chip.esa: {}", answer(&table, Settings::ordinary(Chip::C8051F321)))));
    let archive = common::told("old-box", "./esa check --archive tables/old-box.esa");
    let table = common::table("old-box");
    assert_eq!(archive, format!("tables/old-box.esa: {}\n", answer(&table, Settings::archive(Chip::C8051F320))));
}

#[test]
fn listings_are_those_of_the_texts() {
    let mut seen = 0;
    for name in common::names() {
        let told = common::told(&name, &format!("./esa list tables/{name}.esa"));
        // Of a refused one the sentence stands there too, which the command makes.
        let told: String = told.lines().filter(|line| !line.starts_with("tables/")).map(|line| format!("{line}\n")).collect();
        if !told.is_empty() {
            seen += 1;
            assert_eq!(list(&common::table(&name), Settings::default()), told, "{name}");
        }
    }
    assert!(seen >= 8, "only {seen} texts have a listing");
}

#[test]
fn pin_sheets_are_those_of_the_texts() {
    let mut seen = 0;
    for name in common::names() {
        let told = common::told(&name, &format!("./esa pins tables/{name}.esa"));
        if !told.is_empty() {
            seen += 1;
            let mut pins = Sheet::new();
            sheet(&common::table(&name), Chip::C8051F320, &mut pins).unwrap();
            assert_eq!(sheet_text(&pins, Chip::C8051F320), told, "{name}");
        }
    }
    assert!(seen >= 1, "no text has a pin sheet");
}

#[test]
fn differences_are_those_of_the_text() {
    let (last, this) = (common::table("last-month"), common::table("this-month"));
    let told = common::told("this-month", "./esa diff tables/last-month.esa tables/this-month.esa");
    assert!(!told.is_empty());
    assert_eq!(diff(&last, &this, Chip::C8051F320).as_deref(), Ok(told.as_str()));
}
