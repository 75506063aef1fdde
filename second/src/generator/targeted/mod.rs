//! A fixed list of named tables: one broken in each way that 'What comes back' names, at each
//! boundary, and the good table beside it.

mod chips;
mod claims;
mod codes;
mod counts;
mod description;
mod fans;
mod layouts;
mod lengths;
mod names;
mod pins;
mod retired;
mod texts;
mod water;

use super::raw;
use std::sync::OnceLock;

/// A name that says what is tried, and the table.
pub type Case = (String, Vec<u8>);

/// All cases, made once.
pub fn targeted() -> &'static [Case] {
    static CASES: OnceLock<Vec<Case>> = OnceLock::new();
    CASES.get_or_init(|| {
        let mut cases = Vec::new();
        description::cases(&mut cases);
        layouts::cases(&mut cases);
        lengths::cases(&mut cases);
        counts::cases(&mut cases);
        codes::cases(&mut cases);
        pins::cases(&mut cases);
        names::cases(&mut cases);
        claims::cases(&mut cases);
        chips::cases(&mut cases);
        retired::cases(&mut cases);
        water::cases(&mut cases);
        fans::cases(&mut cases);
        texts::cases(&mut cases);
        cases
    })
}

fn add(cases: &mut Vec<Case>, name: impl Into<String>, table: Vec<u8>) {
    cases.push((name.into(), table));
}

/// Adds the element alone in table A, and again with its zone 1 declared, so that rule 13 does
/// not hide what comes after it.
fn add_element(cases: &mut Vec<Case>, name: &str, element: Vec<u8>) {
    let zoned = raw::table(&[element.clone(), raw::zone(1, 0)]);
    add(cases, format!("{name}, zone declared"), zoned);
    add(cases, format!("{name}, alone"), raw::table(&[element]));
}

/// One good element of each of the twelve kinds that stand in a zone, all in zone 1.
fn devices() -> Vec<(&'static str, Vec<u8>)> {
    vec![
        ("digital", raw::digital(1, 0, 0x90)),
        ("digital on SPI", raw::digital(1, 3, 0x14)),
        ("analogue", raw::analogue(1, 0x20)),
        ("fan", raw::fan(1, 0x05, 0x06)),
        ("status LED", raw::led(1, [0x15, 0xFF, 0xFF])),
        ("current", raw::current(1, 0x21)),
        ("controller", raw::controller(1, 1, 0x40, &[1])),
        (
            "controller of two blocks",
            raw::controller(1, 0, 0x40, &[2, 1]),
        ),
        ("tachometer", raw::tachometer(1, 0, 0x40, 1, 2)),
        ("RGB", raw::rgb(1, 0x06, 0x11, 0x13)),
        ("water level", raw::water(1, 0x16)),
        ("pump", raw::pump(1, 0x11, 0x12)),
        ("voltage", raw::voltage(1, 0x17)),
        ("external RGB", raw::external(1, 0, 0x40, [1, 0, 2])),
        ("external RGB on SPI", raw::external(1, 3, 0x13, [0, 1, 0])),
    ]
}
