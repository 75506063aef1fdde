//! The length of an element first: 6 before 7, and 8 before 9, 10 and 12.

use super::{add, Case};
use crate::element::id;
use crate::generator::raw;

pub fn cases(cases: &mut Vec<Case>) {
    for said in [2, 4] {
        let unknown = vec![0x77, said, 0];
        let name = format!("an unknown one that says {said}");
        add(cases, name, raw::table(&[unknown]));
    }
    too_long(cases);
    too_short(cases);
}

/// A wrong code or pin, and one byte more than the layout has.
fn too_long(cases: &mut Vec<Case>) {
    let lamp = || raw::led(1, [0x14, 0xFF, 0xFF]);
    let changes: [(&str, Vec<u8>, usize, u8); 14] = [
        ("bus type", raw::digital(1, 0, 0x40), 8, 4),
        ("select", raw::digital(1, 3, 0x14), 9, 0x10),
        ("thermal type", raw::analogue(1, 0x14), 8, 2),
        ("calibration", raw::analogue(1, 0x14), 19, 4),
        ("PPR", raw::fan(1, 0x05, 0xFF), 10, 1),
        ("PWM", raw::fan(1, 0x05, 0xFF), 8, 0x07),
        ("colour", lamp(), 9, 0x60),
        ("lamp's pin", lamp(), 8, 0x10),
        ("level", raw::water(1, 0x14), 14, 4),
        ("pump's PPR", raw::pump(1, 0x05, 0xFF), 10, 1),
        ("voltage's pin", raw::voltage(1, 0x14), 8, 0xFF),
        (
            "controller's bus type",
            raw::controller(1, 0, 0x40, &[1]),
            8,
            4,
        ),
        (
            "tachometer's bus type",
            raw::tachometer(1, 0, 0x40, 1, 0),
            8,
            4,
        ),
        ("red", raw::rgb(1, 0x05, 0x06, 0x11), 8, 0x07),
    ];
    for (name, mut element, at, byte) in changes {
        element[at] = byte;
        element.push(0);
        raw::mend_element(&mut element);
        add(
            cases,
            format!("wrong {name}, too long"),
            raw::table(&[element]),
        );
    }
}

/// String 0, and a number a second time, in fewer bytes than the layout has.
fn too_short(cases: &mut Vec<Case>) {
    for length in [4, 5] {
        let short = |number: u8| raw::element(id::TEXT, &[number, 9][..length - 3]);
        let name = format!("string 0 of {length} bytes");
        add(cases, name, raw::table(&[short(0)]));
        let name = format!("a string again, of {length} bytes");
        add(cases, name, raw::table(&[raw::text(7, &[]), short(7)]));
    }
    let again = raw::element(id::ZONE, &raw::zone(1, 0)[3..29]);
    let elements = [raw::zone(1, 0), again];
    add(cases, "a zone again, of 29 bytes", raw::table(&elements));
}
