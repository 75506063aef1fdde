//! The rows of 'Known tables' in document 01, starred or not, against both readers.


use crate::common::{changed, gives, with, ON_320};
use second::generator::raw::{self, CONTROLLER_C, FAN_F, TABLE_A};

/// Fan F with some bytes changed, in table A.
fn with_fan(changes: &[(usize, u8)]) -> Vec<u8> {
    raw::table(&[with(changes, FAN_F.to_vec())])
}

#[test]
fn table_a() {
    gives(&TABLE_A, 0, 0);
    assert_eq!(
        second::listing(&TABLE_A, ON_320),
        b"T\t0.90\t16\t2\t0\t7\tself\t-\t-\t-\n"
    );
    gives(&TABLE_A[..15], 1, 0);
    gives(&[], 1, 0);
    gives(&changed(&[(0, 0x10)]), 2, 0);
    gives(&changed(&[(1, 17)]), 3, 0);
    gives(&changed(&[(8, 0x7D)]), 0, 0);
    gives(&changed(&[(8, 0x7E)]), 5, 0);
}

#[test]
fn table_a_hardware_pins() {
    gives(&changed(&[(9, 0x30)]), 0, 0);
    gives(&changed(&[(9, 0x31)]), 10, 0);
    gives(&changed(&[(9, 0x10)]), 15, 0);
}

#[test]
fn table_a_and_two_bytes() {
    for bytes in [[0, 0], [3, 16], [0xFF, 0xFF]] {
        gives(&raw::table(&[bytes.to_vec()]), 6, 16);
    }
}

#[test]
fn one_fan() {
    gives(&with_fan(&[]), 13, 16);
    gives(&with_fan(&[(9, 0xFF)]), 9, 16);
    gives(&with_fan(&[(8, 0x06), (9, 0x05)]), 10, 16);
    let mut cut = FAN_F[..15].to_vec();
    cut[1] = 15;
    gives(&raw::table(&[cut]), 8, 16);
}

#[test]
fn one_controller() {
    for (entries, number) in [(1, 13), (2, 8), (0, 9)] {
        let mut controller = CONTROLLER_C.to_vec();
        controller[12] = entries;
        gives(&raw::table(&[controller]), number, 16);
    }
}

#[test]
fn fans_and_zone_1() {
    let fan = FAN_F.to_vec();
    let zone = raw::zone(1, 0);
    let table = raw::table(&[fan.clone(), zone.clone()]);
    gives(&table, 0, 2);
    let text = String::from_utf8(second::listing(&table, ON_320)).unwrap();
    assert_eq!(text.lines().nth(1), Some("E\t16\t03\t1\tP0.5,P0.6"));
    // From request 2 on.
    gives(&raw::table(&[fan.clone(), fan.clone(), zone]), 10, 32);
    gives(&raw::table(&[fan.clone(), fan]), 10, 32);
}
