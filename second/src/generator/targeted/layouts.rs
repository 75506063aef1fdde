//! Rules 6, 7 and 8: headers, identifiers, lengths and blocks.

use super::{add, add_element, devices, Case};
use crate::element::{fixed_length, id};
use crate::generator::raw;

pub fn cases(cases: &mut Vec<Case>) {
    headers(cases);
    identifiers(cases);
    lengths(cases);
    speed_blocks(cases);
    uneven_blocks(cases);
    register_blocks(cases);
    strings_and_zones(cases);
}

/// One or two bytes left; an element that stops one short or reaches one past the end.
fn headers(cases: &mut Vec<Case>) {
    for left in 1..=2 {
        for byte in [0x00, 0x01, 0x03, 0x0B, 0xFF] {
            let mut table = raw::table(&[]);
            table.extend(vec![byte; left]);
            raw::mend(&mut table);
            add(cases, format!("{left} bytes of {byte:02X}h left"), table);
        }
    }
    for (name, element) in devices() {
        for off in [-1i32, 1, 2, 256] {
            let mut wrong = element.clone();
            let said = (element.len() as i32 + off) as u16;
            wrong[1..3].copy_from_slice(&said.to_le_bytes());
            add_element(cases, &format!("{name}, length off by {off}"), wrong);
        }
        let mut table = raw::table(&[element, vec![0x0C]]);
        raw::mend(&mut table);
        add(cases, format!("{name} and one byte"), table);
    }
    let full = raw::table(&[vec![0x03, 0xFF, 0xFF]]);
    add(cases, "an element that says 65535", full);
}

fn identifiers(cases: &mut Vec<Case>) {
    for identifier in 0..=255u8 {
        for body in [0usize, 8, 11, 12, 13, 17, 18, 27] {
            let element = raw::element(identifier, &vec![0; body]);
            let name = format!("identifier {identifier:02X}h of {} bytes", body + 3);
            add(cases, name, raw::table(&[element]));
        }
    }
}

/// Element lengths 0 to layout + 2 of each kind: the bytes grown or cut to fit, and left alone.
fn lengths(cases: &mut Vec<Case>) {
    let mut all = devices();
    all.push(("string", raw::text(1, b"ab")));
    all.push(("zone", raw::zone(1, 0)));
    for (name, element) in all {
        for said in 0..=element.len() + 2 {
            let mut alone = element.clone();
            alone[1..3].copy_from_slice(&(said as u16).to_le_bytes());
            add(
                cases,
                format!("{name} that says {said}"),
                raw::table(&[alone.clone()]),
            );
            if said >= 3 {
                alone.resize(said, 0);
                add_element(cases, &format!("{name} of {said} bytes"), alone);
            }
        }
    }
}

/// 0 to 7 blocks; a block with ENTRIES 0 in each place of each number of blocks.
fn speed_blocks(cases: &mut Vec<Case>) {
    for count in 0..=8 {
        for entries in [0, 1, 2, 255] {
            if entries == 255 && count > 3 {
                continue;
            }
            let element = raw::controller(1, 0, 0x40, &vec![entries; count]);
            add_element(cases, &format!("{count} blocks of {entries}"), element);
        }
        for empty in 0..count {
            let mut blocks = vec![1; count];
            blocks[empty] = 0;
            let element = raw::controller(1, 0, 0x40, &blocks);
            add_element(cases, &format!("{count} blocks, {empty} empty"), element);
        }
    }
    let seven_and_half = [&raw::controller(1, 0, 0x40, &[1; 7])[..], &[5]].concat();
    let mut element = seven_and_half;
    raw::mend_element(&mut element);
    add_element(cases, "seven blocks and a byte", element);
}

/// Blocks that do not fill their element: bytes added or cut, ENTRIES one more or one fewer.
fn uneven_blocks(cases: &mut Vec<Case>) {
    for blocks in [&[1u8][..], &[2, 1], &[1, 1, 1, 1, 1, 1]] {
        let whole = raw::controller(1, 3, 0x30, blocks);
        for off in -6i32..=6 {
            let mut element = whole.clone();
            element.resize((whole.len() as i32 + off) as usize, 0);
            raw::mend_element(&mut element);
            let name = format!("{} blocks and {off} bytes", blocks.len());
            add_element(cases, &name, element);
        }
        for entries in 0..=255u8 {
            let mut element = whole.clone();
            element[12] = entries;
            let name = format!("{} blocks, the first says {entries}", blocks.len());
            add_element(cases, &name, element);
        }
    }
    // A reserved bus type (9) beside blocks that do not fill (8), and beside a bad select (10).
    let mut element = raw::controller(1, 9, 0x40, &[2]);
    element[12] = 3;
    add_element(cases, "reserved bus and uneven blocks", element);
    let element = raw::controller(1, 3, 0x10, &[1, 0]);
    add_element(cases, "empty block and bad select", element);
}

fn register_blocks(cases: &mut Vec<Case>) {
    for a in [0u8, 1, 2, 63, 255] {
        for b in [0u8, 1, 2, 63, 255] {
            let whole = raw::tachometer(1, 0, 0x40, a, b);
            for off in -5i32..=5 {
                let mut element = whole.clone();
                element.resize((whole.len() as i32 + off) as usize, 0);
                raw::mend_element(&mut element);
                add_element(
                    cases,
                    &format!("tachometer {a} {b} and {off} bytes"),
                    element,
                );
            }
        }
    }
    for entries in 0..=255u8 {
        let mut element = raw::tachometer(1, 3, 0x05, 2, 3);
        element[12] = entries;
        add_element(cases, &format!("tachometer that says {entries}"), element);
    }
}

fn strings_and_zones(cases: &mut Vec<Case>) {
    for (identifier, longest) in [(id::TEXT, 12), (id::ZONE, 34)] {
        for length in fixed_length(identifier)..=longest {
            let element = raw::element(identifier, &vec![1; length - 3]);
            let string = raw::text(1, &[]);
            let name = format!("{identifier:02X}h of {length} bytes");
            if identifier == id::ZONE {
                add(cases, name, raw::table(&[element, string]));
            } else {
                add(cases, name, raw::table(&[element]));
            }
        }
    }
    for length in [63, 64, 65, 66, 251, 255, 256, 1000] {
        let element = raw::text(200, &vec![0x41; length]);
        add(
            cases,
            format!("text of {length} bytes"),
            raw::table(&[element]),
        );
    }
}
