//! Rules 1 to 5 and the hardware revision pins.

use super::{add, Case};
use crate::generator::raw::{self, Parts, TABLE_A};

pub fn cases(cases: &mut Vec<Case>) {
    short(cases);
    length_field(cases);
    one_byte(cases);
    serials(cases);
    hardware(cases);
    large(cases);
    first_of_two(cases);
}

/// 0 to 17 bytes, the length field as it was and mended.
fn short(cases: &mut Vec<Case>) {
    let mut long = TABLE_A.to_vec();
    long.push(0);
    for length in 0..=17 {
        let cut = long[..length].to_vec();
        add(cases, format!("{length} bytes that say 16"), cut.clone());
        let mut mended = cut;
        raw::mend(&mut mended);
        add(cases, format!("{length} bytes, length mended"), mended);
    }
}

fn length_field(cases: &mut Vec<Case>) {
    for said in [0u16, 1, 3, 15, 17, 255, 272, 4096, 4097, 4112, 0xFFFF] {
        let mut table = TABLE_A.to_vec();
        table[1..3].copy_from_slice(&said.to_le_bytes());
        add(cases, format!("16 bytes that say {said}"), table);
    }
    for extra in [65_536 - 16, 65_536, 65_536 + 16] {
        let mut table = TABLE_A.to_vec();
        table.resize(extra, 0);
        raw::mend(&mut table);
        add(cases, format!("{extra} bytes, the low 16 bits said"), table);
    }
}

/// Every value of revision, device type, string index, power and each reserved byte.
fn one_byte(cases: &mut Vec<Case>) {
    for value in 0..=255u8 {
        for (at, name) in [(0, "revision"), (3, "type"), (4, "string"), (8, "power")] {
            let mut table = TABLE_A.to_vec();
            table[at] = value;
            add(cases, format!("{name} {value:02X}h"), table);
        }
    }
    let mut table = TABLE_A.to_vec();
    table[12..].fill(0xFF);
    add(cases, "description's reserved places FFh", table);
}

/// Any serial number is good, 0 too: at the ends of its bytes and of its decimals.
fn serials(cases: &mut Vec<Case>) {
    for serial in [
        0, 9, 10, 255, 256, 65_535, 65_536, 9_999_999, 10_000_000, 0xFF_FFFF,
    ] {
        let mut table = TABLE_A.to_vec();
        table[5..8].copy_from_slice(&u32::to_le_bytes(serial)[..3]);
        add(cases, format!("serial number {serial}"), table);
    }
}

/// Every pin byte in each of the three places, and one pin twice.
fn hardware(cases: &mut Vec<Case>) {
    for pin in 0..=255u8 {
        for at in 9..12 {
            let mut table = TABLE_A.to_vec();
            table[at] = pin;
            add(cases, format!("hardware pin {pin:02X}h at {at}"), table);
        }
    }
    for (one, other) in [(9, 10), (9, 11), (10, 11)] {
        let mut table = TABLE_A.to_vec();
        table[one] = 0x22;
        table[other] = 0x22;
        add(
            cases,
            format!("one hardware pin at {one} and {other}"),
            table,
        );
    }
    let mut table = TABLE_A.to_vec();
    table[9..12].copy_from_slice(&[0x00, 0x17, 0x30]);
    add(cases, "three hardware pins", table);
}

/// A string fills the table up to and past 4,096 bytes.
fn large(cases: &mut Vec<Case>) {
    for length in [4094, 4095, 4096, 4097, 4098] {
        let table = raw::table(&[raw::text(1, &vec![0x20; length - 22])]);
        add(
            cases,
            format!("{length} bytes with one string"),
            table.clone(),
        );
        let mut said = table;
        said[1..3].copy_from_slice(&4096u16.to_le_bytes());
        add(cases, format!("{length} bytes that say 4096"), said);
    }
}

/// Each pair of faults in the description, to see the order of the rules.
fn first_of_two(cases: &mut Vec<Case>) {
    type Fault = (&'static str, usize, u8);
    let faults: [Fault; 7] = [
        ("revision", 0, 0x10),
        ("length", 1, 0x11),
        ("type", 3, 0),
        ("power", 8, 126),
        ("hardware pin", 9, 0x31),
        ("string", 4, 9),
        ("fault LED's pin", 10, 0x10),
    ];
    for (at, &(name, place, value)) in faults.iter().enumerate() {
        for &(other, second, also) in &faults[at + 1..] {
            let mut parts = Parts::of(&[]).bytes();
            parts[place] = value;
            parts[second] = also;
            add(cases, format!("wrong {name} and wrong {other}"), parts);
        }
    }
    for cut in 0..16 {
        let mut table = vec![0x10; cut];
        raw::mend(&mut table);
        add(cases, format!("{cut} bytes of wrong revision"), table);
    }
}
