//! Pairs of tables: one field altered, with the line that must come of it; and a table of any sort beside another.

use super::raw::{self, Parts};
use super::{any, raw::TABLE_A};
use crate::element::id;
use crate::pins;
use crate::random::Random;
use crate::reader::check;
use crate::settings::{Rules, Settings};

/// Two tables that differ in one field, and what is printed of them: the kind's identifier (0 for the description), the field, its
/// contents.
pub struct Altered {
    pub identifier: u8,
    pub field: &'static str,
    pub one: Vec<u8>,
    pub two: Vec<u8>,
    pub line: String,
}

/// A field of an element: its name, where it stands, what is put there in the second table, and both contents as they print.
type Change<'c> = (&'static str, &'c [(usize, u8)], &'c str, &'c str);

/// The element stands behind zones 1 and 2 and string 1, at byte 84.
fn of_element(element: &[u8], changes: &[Change]) -> Vec<Altered> {
    let beside = |element: Vec<u8>| {
        let text = raw::text(1, &[0x41, 0]);
        raw::table(&[raw::zone(1, 0), raw::zone(2, 1), text, element])
    };
    let mut list = Vec::new();
    for &(field, bytes, first, second) in changes {
        let mut other = element.to_vec();
        bytes.iter().for_each(|&(at, value)| other[at] = value);
        list.push(Altered {
            identifier: element[0],
            field,
            one: beside(element.to_vec()),
            two: beside(other),
            line: format!("D\t84\t84\t{field}\t{first}\t{second}\n"),
        });
    }
    list
}

fn of_description(changes: &[Change]) -> Vec<Altered> {
    let mut list = Vec::new();
    for &(field, bytes, first, second) in changes {
        let mut parts = Parts::of(&[raw::text(1, &[])]);
        let one = parts.bytes();
        bytes
            .iter()
            .for_each(|&(at, value)| parts.description[at] = value);
        list.push(Altered {
            identifier: 0,
            field,
            one,
            two: parts.bytes(),
            line: format!("D\t0\t0\t{field}\t{first}\t{second}\n"),
        });
    }
    list
}

/// Those that all kinds but zones and strings have; the element is in zone 1, its position unknown, and has no name.
const COMMON: [Change; 5] = [
    ("string index", &[(3, 1)], "0", "1"),
    ("x pos", &[(4, 0)], "255", "0"),
    ("y pos", &[(5, 254)], "255", "254"),
    ("z pos", &[(6, 10)], "255", "10"),
    ("zone identifier", &[(7, 2)], "1", "2"),
];

fn device(element: Vec<u8>, own: &[Change]) -> Vec<Altered> {
    joined([of_element(&element, &COMMON), of_element(&element, own)])
}

fn joined<const N: usize>(lists: [Vec<Altered>; N]) -> Vec<Altered> {
    lists.into_iter().flatten().collect()
}

/// Every field of the description and of every kind, once or more often, by hand.
pub fn altered() -> Vec<Altered> {
    joined([
        of_description(&[
            ("esa device type", &[(3, 3)], "2", "3"),
            ("string index", &[(4, 1)], "0", "1"),
            ("serial number", &[(5, 8)], "7", "8"),
            ("serial number", &[(6, 1)], "7", "263"),
            (
                "serial number",
                &[(5, 0xFF), (6, 0xFF), (7, 0xFF)],
                "7",
                "16777215",
            ),
            ("spwr", &[(8, 0)], "1", "0"),
            ("power units", &[(8, 0xFF)], "0", "127"),
            ("hardware revision 0", &[(9, 0x30)], "-", "P3.0"),
            ("hardware revision 1", &[(10, 0x00)], "-", "P0.0"),
            ("hardware revision 2", &[(11, 0x23)], "-", "P2.3"),
        ]),
        sensors(),
        driven(),
        lamps(),
        on_a_bus(),
        contents(),
    ])
}

fn sensors() -> Vec<Altered> {
    joined([
        device(
            raw::digital(1, 0, 0x40),
            &[
                ("bus type", &[(8, 1)], "0", "1"),
                ("bus type", &[(8, 2)], "0", "2"),
                ("device address", &[(9, 0x42)], "32", "33"),
                ("device address", &[(9, 0xFE)], "32", "127"),
                ("temperature lsb read register", &[(12, 1)], "1", "257"),
                ("temperature msb read register", &[(13, 0)], "2", "0"),
                ("minimum value", &[(15, 9)], "0", "9"),
                ("minimum temp", &[(17, 20)], "0", "20"),
                ("maximum value", &[(19, 0xFF)], "1023", "65535"),
                ("maximum temp", &[(20, 255)], "100", "255"),
            ],
        ),
        device(
            raw::analogue(1, 0x14),
            &[
                ("pin", &[(9, 0x30)], "P1.4", "P3.0"),
                ("value0", &[(10, 0x53)], "850", "851"),
                ("value25", &[(13, 0)], "700", "188"),
                ("value50", &[(14, 0)], "500", "256"),
                ("value75", &[(16, 0)], "320", "256"),
                ("value100", &[(18, 0xFF), (19, 3)], "200", "1023"),
            ],
        ),
        device(
            raw::water(1, 0x15),
            &[
                ("pin", &[(8, 0x14)], "P1.5", "P1.4"),
                ("full", &[(9, 0)], "900", "768"),
                ("empty", &[(12, 1)], "100", "356"),
                ("warning", &[(13, 0), (14, 0)], "300", "0"),
            ],
        ),
        device(
            raw::voltage(1, 0x16),
            &[
                ("pin", &[(8, 0x17)], "P1.6", "P1.7"),
                ("vmax", &[(9, 255)], "140", "255"),
                ("vmin", &[(10, 141)], "0", "141"),
            ],
        ),
        device(
            raw::current(1, 0x20),
            &[
                ("pin", &[(8, 0x21)], "P2.0", "P2.1"),
                ("imin", &[(10, 1), (11, 1)], "0", "257"),
                ("imax", &[(13, 0xFF)], "300", "65324"),
            ],
        ),
    ])
}

fn driven() -> Vec<Altered> {
    let own: [Change; 7] = [
        ("pwm", &[(8, 0x05)], "P0.6", "P0.5"),
        ("tach", &[(9, 0x13)], "P1.1", "P1.3"),
        ("ppr", &[(10, 0)], "2", "0"),
        ("minimum rpm", &[(11, 0), (12, 0)], "300", "0"),
        ("maximum rpm", &[(14, 0xFF)], "1500", "65500"),
        ("minimum duty cycle", &[(15, 255)], "64", "255"),
        ("minimum duty cycle", &[(15, 63)], "64", "63"),
    ];
    let silent: [Change; 1] = [("tach", &[(9, 0xFF)], "P1.1", "-")];
    // Without a tachometer it has no pulses either.
    let mut still = raw::fan(1, 0x06, 0x11);
    still[10] = 0;
    joined([
        device(raw::fan(1, 0x06, 0x11), &own),
        device(raw::pump(1, 0x06, 0x11), &own),
        of_element(&still, &silent),
    ])
}

fn lamps() -> Vec<Altered> {
    joined([
        device(
            raw::led(1, [0x14, 0x15, 0x00]),
            &[
                ("pin1", &[(8, 0x16)], "P1.4", "P1.6"),
                ("pin1", &[(8, 0xFF)], "P1.4", "-"),
                ("color1", &[(9, 0x51)], "1", "5"),
                ("purpose1", &[(9, 0x10)], "1", "0"),
                ("pin2", &[(10, 0x01)], "P1.5", "P0.1"),
                ("color2", &[(11, 0x21)], "1", "2"),
                ("purpose2", &[(11, 0x12)], "1", "2"),
                ("pin3", &[(12, 0x04)], "P0.0", "P0.4"),
                ("color3", &[(13, 0x41)], "1", "4"),
                ("purpose3", &[(13, 0x14)], "1", "4"),
            ],
        ),
        // Beside an unused pin they are in the record too.
        of_element(
            &raw::led(1, [0xFF, 0xFF, 0xFF]),
            &[
                ("color1", &[(9, 0xF0)], "0", "15"),
                ("purpose2", &[(11, 0x0F)], "0", "15"),
                ("color3", &[(13, 0x60)], "0", "6"),
            ],
        ),
        device(
            raw::rgb(1, 0x06, 0x11, 0x12),
            &[
                ("red", &[(8, 0x05)], "P0.6", "P0.5"),
                ("blue", &[(10, 0x13)], "P1.2", "P1.3"),
            ],
        ),
        of_element(
            &raw::rgb(1, 0x05, 0x06, 0x12),
            &[("green", &[(9, 0x11)], "P0.6", "P1.1")],
        ),
    ])
}

fn on_a_bus() -> Vec<Altered> {
    let attached: [Change; 3] = [
        ("bus type", &[(8, 1)], "0", "1"),
        ("bus type", &[(8, 2)], "0", "2"),
        ("device address", &[(9, 0)], "32", "0"),
    ];
    let selected: [Change; 2] = [
        ("device address", &[(9, 0x13)], "P1.4", "P1.3"),
        ("device address", &[(9, 0x30)], "P1.4", "P3.0"),
    ];
    joined([
        device(raw::controller(1, 0, 0x40, &[1]), &attached),
        device(raw::tachometer(1, 0, 0x40, 1, 0), &attached),
        device(raw::external(1, 0, 0x40, [0, 1, 0]), &attached),
        of_element(&raw::digital(1, 3, 0x14), &selected),
        of_element(&raw::controller(1, 3, 0x14, &[1]), &selected),
        of_element(&raw::tachometer(1, 3, 0x14, 0, 0), &selected),
        of_element(&raw::external(1, 3, 0x14, [0, 0, 0]), &selected),
        of_element(
            &raw::external(1, 0, 0x40, [0, 0, 0]),
            &[("chip identifier", &[(11, 3)], "1", "3")],
        ),
        of_element(
            &raw::controller(1, 0, 0x40, &[1]),
            &[(
                "variable part",
                &[(11, 0xAB)],
                "050107000000",
                "AB0107000000",
            )],
        ),
        of_element(
            &raw::tachometer(1, 0, 0x40, 0, 1),
            &[(
                "variable part",
                &[(17, 0xC0)],
                "000107000000",
                "0001070000C0",
            )],
        ),
        of_element(
            &raw::external(1, 0, 0x40, [1, 0, 0]),
            &[(
                "variable part",
                &[(13, 0xFF)],
                "01070000000000",
                "01FF0000000000",
            )],
        ),
    ])
}

/// All bytes after the header, those that are reserved or name something too.
fn contents() -> Vec<Altered> {
    let curve = "00".repeat(23);
    joined([
        of_element(
            &raw::zone(9, 0),
            &[
                (
                    "variable part",
                    &[(3, 10)],
                    &format!("09000000{curve}"),
                    &format!("0A000000{curve}"),
                ),
                (
                    "variable part",
                    &[(4, 1)],
                    &format!("09000000{curve}"),
                    &format!("09010000{curve}"),
                ),
                (
                    "variable part",
                    &[(5, 0xFF)],
                    &format!("09000000{curve}"),
                    &format!("0900FF00{curve}"),
                ),
                (
                    "variable part",
                    &[(29, 0x5A)],
                    &format!("09000000{curve}"),
                    &format!("09000000{}5A", "00".repeat(22)),
                ),
            ],
        ),
        of_element(
            &raw::text(9, &[0x41, 0]),
            &[
                ("variable part", &[(3, 8)], "0909044100", "0809044100"),
                ("variable part", &[(4, 0)], "0909044100", "0900044100"),
                ("variable part", &[(7, 0x4E)], "0909044100", "090904414E"),
            ],
        ),
    ])
}

/// Bytes that a field may hold, and rather such as it may not.
const TELLING: [u8; 8] = [0, 1, 2, 3, 0x10, 0x80, 0xFE, 0xFF];

/// A table beside this one: mostly the same but for one byte, and rather one that these settings accept, by the archive's rules.
pub fn beside(random: &mut Random, table: &[u8], settings: Settings) -> Vec<u8> {
    match random.below(20) {
        0 => table.to_vec(),
        1 => reserved(random, table),
        2..=3 => rearranged(random, table),
        4..=5 => any(random, settings),
        _ => one_byte(random, table, settings),
    }
}

/// One byte altered: of the tries the first that is accepted, or the last.
fn one_byte(random: &mut Random, table: &[u8], settings: Settings) -> Vec<u8> {
    let archive = Settings::new(settings.chip, Rules::Archive);
    let starts = starts(table);
    let mut other = table.to_vec();
    if other.is_empty() {
        return vec![random.byte()];
    }
    for _ in 0..16 {
        other.copy_from_slice(table);
        let (at, value) = a_change(random, table, &starts);
        if let Some(byte) = other.get_mut(at) {
            *byte = value;
        }
        if other != table && check(&other, archive).number() == 0 {
            break;
        }
    }
    other
}

/// Where, and what: in an element another zone or string that is there, another pin, or any byte; or in the description, or anywhere.
fn a_change(random: &mut Random, table: &[u8], starts: &[usize]) -> (usize, u8) {
    let start = an_element(random, table, starts);
    let any = match random.below(3) {
        0 => *random.pick(table) ^ 1 << random.below(8),
        1 => *random.pick(&TELLING),
        _ => random.byte(),
    };
    match random.below(8) {
        0 => (3 + random.below(13), any),
        1 => (9 + random.below(3), *random.pick(&pins::ALL)),
        2 => (random.below(table.len()), any),
        3 => (start + 7, a_number(random, table, starts, id::ZONE)),
        4 => (start + 3, a_number(random, table, starts, id::TEXT)),
        5 => (start + 8 + random.below(5), a_pin(random)),
        6 => (start + 8 + random.below(3), *random.pick(&pins::FAN_LIST)),
        _ => (start + 3 + random.below(18), any),
    }
}

/// One of the pins, or unused.
fn a_pin(random: &mut Random) -> u8 {
    match random.chance(20) {
        true => 0xFF,
        false => *random.pick(&pins::ALL),
    }
}

/// Where one starts; rather one of the few on the fan list. Of none, the table itself.
fn an_element(random: &mut Random, table: &[u8], starts: &[usize]) -> usize {
    let listed = |&&start: &&usize| [id::FAN, id::PUMP, id::RGB_LED].contains(&table[start]);
    let few: Vec<usize> = starts.iter().filter(listed).copied().collect();
    match (few.is_empty() || random.chance(70), starts.is_empty()) {
        (_, true) => 0,
        (true, _) => *random.pick(starts),
        (false, _) => *random.pick(&few),
    }
}

/// The number of a zone or a string of the table, or any.
fn a_number(random: &mut Random, table: &[u8], starts: &[usize], kind: u8) -> u8 {
    let those = starts.iter().filter(|&&start| table[start] == kind);
    let numbers: Vec<u8> = those
        .filter_map(|start| table.get(start + 3).copied())
        .collect();
    match numbers.is_empty() {
        true => random.byte(),
        false => *random.pick(&numbers),
    }
}

/// The offset of each element, as far as the bytes can be cut.
fn starts(table: &[u8]) -> Vec<usize> {
    let mut place = TABLE_A.len();
    let elements = raw::cut(table);
    elements
        .map(|element| {
            place += element.len();
            place - element.len()
        })
        .collect()
}

/// Reserved places alone are altered, each or none of them.
fn reserved(random: &mut Random, table: &[u8]) -> Vec<u8> {
    let mut other = table.to_vec();
    let mut spoil = |at: usize, bits: u8| {
        if let Some(byte) = other.get_mut(at) {
            *byte ^= bits & random.byte();
        }
    };
    (12..16).for_each(|at| spoil(at, 0xFF));
    for start in starts(table) {
        match table[start] {
            id::ANALOGUE_SENSOR => spoil(start + 8, 0xF0),
            id::CURRENT => spoil(start + 9, 0xFF),
            kind if id::ON_A_BUS.contains(&kind) => {
                spoil(start + 8, 0xF0);
                spoil(start + 10, 0xFF);
                let spi = table.get(start + 8).is_some_and(|bus| bus & 0x0F == 3);
                if !spi {
                    spoil(start + 9, 0x01);
                }
                if kind == id::TACHOMETER {
                    spoil(start + 11, 0xFF);
                }
            }
            _ => {}
        }
    }
    other
}

/// Two elements exchanged, one left out or one more at the end.
fn rearranged(random: &mut Random, table: &[u8]) -> Vec<u8> {
    let mut elements: Vec<&[u8]> = raw::cut(table).collect();
    if table.len() < 16 || elements.is_empty() {
        return table.to_vec();
    }
    let (at, other) = (random.below(elements.len()), random.below(elements.len()));
    let lamp = raw::led(table.get(23).copied().unwrap_or(1), [0xFF; 3]);
    match random.below(4) {
        0 => elements.swap(at, other),
        1 => elements.push(&lamp),
        2 => elements.truncate(at),
        _ => {
            elements.remove(at);
        }
    }
    let mut bytes = [&[&table[..16]], &elements[..]].concat().concat();
    raw::mend(&mut bytes);
    bytes
}
