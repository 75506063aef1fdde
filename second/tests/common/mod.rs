//! What several tests need.
#![allow(dead_code)]

use second::generator::raw::{self, TABLE_A};
use second::{plain, Chip, Rules, Settings, Verdict};

pub const ON_320: Settings = Settings::new(Chip::F320, Rules::Ordinary);
pub const ON_321: Settings = Settings::new(Chip::F321, Rules::Ordinary);
pub const ARCHIVE: Settings = Settings::new(Chip::F320, Rules::Archive);

/// Both readers answer this number with this place, or count beside 0, with all settings.
#[track_caller]
pub fn gives(table: &[u8], number: u8, beside: usize) {
    for chip in Chip::BOTH {
        gives_on(chip, table, number, beside);
    }
}

/// The same on one chip, by both rules.
#[track_caller]
pub fn gives_on(chip: Chip, table: &[u8], number: u8, beside: usize) {
    for rules in Rules::BOTH {
        gives_with(Settings::new(chip, rules), table, number, beside);
    }
}

/// The same by one of the rules, on both chips.
#[track_caller]
pub fn gives_by(rules: Rules, table: &[u8], number: u8, beside: usize) {
    for chip in Chip::BOTH {
        gives_with(Settings::new(chip, rules), table, number, beside);
    }
}

#[track_caller]
fn gives_with(settings: Settings, table: &[u8], number: u8, beside: usize) {
    let wanted = match number {
        0 => Verdict::Accepted(beside),
        _ => Verdict::Refused {
            number,
            place: beside,
        },
    };
    assert_eq!(
        second::check(table, settings),
        wanted,
        "fast, {settings}: {table:02X?}"
    );
    assert_eq!(
        plain::check(table, settings),
        wanted,
        "plain, {settings}: {table:02X?}"
    );
}

/// Table A with some bytes changed.
pub fn changed(changes: &[(usize, u8)]) -> Vec<u8> {
    with(changes, TABLE_A.to_vec())
}

/// These bytes with some of them changed.
pub fn with(changes: &[(usize, u8)], mut bytes: Vec<u8>) -> Vec<u8> {
    for &(at, value) in changes {
        bytes[at] = value;
    }
    bytes
}

/// Table A, zone 1 at 16, and these elements from 46 on.
pub fn zoned(elements: &[Vec<u8>]) -> Vec<u8> {
    let mut all = vec![raw::zone(1, 0)];
    all.extend_from_slice(elements);
    raw::table(&all)
}
