//! Rule 9 over the text of a string: every order of units that matter, odd bytes, and what is refused before it
//! or after it.

use super::{add, Case};
use crate::generator::raw;

/// A letter, the ends of the surrogates and what stands beside them, and two that are no characters.
const UNITS: [u16; 9] = [
    0x0041, 0xD7FF, 0xD800, 0xDBFF, 0xDC00, 0xDFFF, 0xE000, 0xFFFE, 0x0000,
];
/// Those that a pair can be made of, and a letter.
const FEW: [u16; 4] = [0x0041, 0xD83D, 0xDE00, 0xDC41];

pub fn cases(cases: &mut Vec<Case>) {
    for one in UNITS {
        add_text(cases, &[one]);
        for two in UNITS {
            add_text(cases, &[one, two]);
        }
    }
    for one in FEW {
        for two in FEW {
            for three in FEW {
                add_text(cases, &[one, two, three]);
                for four in FEW {
                    add_text(cases, &[one, two, three, four]);
                }
            }
        }
    }
    ends(cases);
    locales(cases);
    far(cases);
    company(cases);
}

fn bytes(units: &[u16]) -> Vec<u8> {
    units.iter().flat_map(|unit| unit.to_le_bytes()).collect()
}

fn add_text(cases: &mut Vec<Case>, units: &[u16]) {
    let table = raw::table(&[raw::text(7, &bytes(units))]);
    add(cases, format!("text {units:04X?}"), table);
}

/// An odd byte behind texts good and bad, and bytes of a unit exchanged.
fn ends(cases: &mut Vec<Case>) {
    for units in [&[][..], &[0x41], &[0xD83D, 0xDE00], &[0xD83D], &[0xDE00]] {
        for odd in [0x00, 0x41, 0xD8, 0xDC] {
            let text = [&bytes(units)[..], &[odd]].concat();
            let name = format!("text {units:04X?} and {odd:02X}h");
            add(cases, name, raw::table(&[raw::text(7, &text)]));
        }
        let mut exchanged = bytes(units);
        exchanged.chunks_exact_mut(2).for_each(<[u8]>::reverse);
        let name = format!("text {units:04X?}, highest byte first");
        add(cases, name, raw::table(&[raw::text(7, &exchanged)]));
    }
    // A high byte across the end of a string into the next element's header.
    let half = raw::text(7, &bytes(&[0xD83D]));
    let low = raw::text(8, &bytes(&[0xDE00]));
    add(cases, "a pair in two strings", raw::table(&[half, low]));
}

/// Any locale is good, and is none of the text.
fn locales(cases: &mut Vec<Case>) {
    for locale in [0x0000u16, 0xD83D, 0xDE00, 0xFFFF] {
        for units in [&[][..], &[0x41], &[0xDE00], &[0xD83D, 0xDE00]] {
            let mut element = raw::text(7, &bytes(units));
            element[4..6].copy_from_slice(&locale.to_le_bytes());
            let name = format!("locale {locale:04X}h, text {units:04X?}");
            add(cases, name, raw::table(&[element]));
        }
    }
}

/// The one bad unit at each place of a text of 64 units, and of one that fills the table.
fn far(cases: &mut Vec<Case>) {
    for units in [64, 2_037] {
        for at in [0, 1, 2, 7, 8, 31, 62, 63, 2_036] {
            for unit in [0xD83D, 0xDE00] {
                let mut text = vec![0x0041; units];
                if let Some(place) = text.get_mut(at) {
                    *place = unit;
                    let name = format!("{unit:04X}h at {at} of {units}");
                    add(cases, name, raw::table(&[raw::text(7, &bytes(&text))]));
                }
            }
        }
        let pairs: Vec<u16> = [0xD83D, 0xDE00].into_iter().cycle().take(units).collect();
        let name = format!("{units} units of pairs");
        add(cases, name, raw::table(&[raw::text(7, &bytes(&pairs))]));
    }
}

/// Malformed, and numbered 0, repeated, the 97th, too short, before and after other faults.
fn company(cases: &mut Vec<Case>) {
    let bad = |number: u8| raw::text(number, &bytes(&[0xD800]));
    let good = |number: u8| raw::text(number, &bytes(&[0x41]));
    let lists: [(&str, Vec<Vec<u8>>); 9] = [
        ("numbered 0", vec![bad(0)]),
        ("repeated", vec![good(7), bad(7)]),
        ("and repeated later", vec![bad(7), good(7)]),
        ("too short", vec![raw::element(0x0C, &[7, 9])]),
        ("named", vec![raw::zone(1, 7), bad(7)]),
        ("and a zone missing", vec![raw::led(9, [0xFF; 3]), bad(7)]),
        ("after an unknown one", vec![vec![0x77, 3, 0], bad(7)]),
        ("before an unknown one", vec![bad(7), vec![0x77, 3, 0]]),
        ("before a wrong pin", vec![bad(7), raw::analogue(1, 0x10)]),
    ];
    for (name, elements) in lists {
        add(cases, format!("malformed, {name}"), raw::table(&elements));
    }
    let mut elements: Vec<Vec<u8>> = (1..=96).map(good).collect();
    elements.push(bad(97));
    add(cases, "malformed, the 97th", raw::table(&elements));
    elements.remove(0);
    add(cases, "malformed, the 96th", raw::table(&elements));
}
