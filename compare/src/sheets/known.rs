//! Sheets that follow from the papers: fan F, controller C and zone 1 of document 01 in tables of their own, and 9/14 of
//! document 02. No pin of theirs is one of the four and no bus is in block mode, so that they are the same with all settings.

use super::call::{Does, SheetCall};
use crate::known::{changed, with, C, F, ZONE_1};
use second::Sheet;
use std::rc::Rc;

pub struct Row {
    pub name: &'static str,
    pub table: Rc<[u8]>,
    pub call: SheetCall,
    pub number: u8,
    pub beside: usize,
    /// As it is left.
    pub sheet: Sheet,
}

const FREE: u16 = 0xFFFF;
/// Where pins stand in a sheet: 8 x port + pin.
const P0_7: usize = 7;
const P1_0: usize = 8;

/// All free but the fault LED's pin and these.
fn of(taken: &[(usize, u16)]) -> Sheet {
    let mut sheet = [FREE; 25];
    sheet[P1_0] = 0xFFFE;
    for &(pin, place) in taken {
        sheet[pin] = place;
    }
    sheet
}

/// Made afresh over numbers that must all go.
fn afresh(name: &'static str, table: Vec<u8>, count: usize, taken: &[(usize, u16)]) -> Row {
    let does = Does::Afresh;
    let sheet = [0x1234; 25];
    Row {
        name,
        table: table.into(),
        call: SheetCall { does, sheet },
        number: 0,
        beside: count,
        sheet: of(taken),
    }
}

/// Brought forward from a sheet to another.
fn forward(
    name: &'static str,
    elements: &[&[u8]],
    from: &[(usize, u16)],
    to: &[(usize, u16)],
) -> Row {
    let (does, sheet) = (Does::Forward, of(from));
    let call = SheetCall { does, sheet };
    Row {
        call,
        ..afresh(name, with(elements), elements.len(), to)
    }
}

/// Both calls refuse, and the sheet is kept.
fn refused(name: &'static str, elements: &[&[u8]], number: u8, place: usize) -> [Row; 2] {
    let sheet = std::array::from_fn(|at| 777 * at as u16);
    [Does::Afresh, Does::Forward].map(|does| Row {
        name,
        table: with(elements).into(),
        call: SheetCall { does, sheet },
        number,
        beside: place,
        sheet,
    })
}

pub fn rows() -> Vec<Row> {
    // An SPI controller with its chip select on P1.4, and an analogue sensor on P1.5 and one on P1.6.
    let spi = &changed(&C, &[(8, 3), (9, 0x14)])[..];
    let sensor = |pin| [0x08, 14, 0, 0, 0xFF, 0xFF, 0xFF, 1, pin, 0, 0, 0, 1, 0];
    let (one, other) = (&sensor(0x15)[..], &sensor(0x16)[..]);
    let strapped = changed(&with(&[]), &[(9, 0x30), (11, 0x07)]);
    let fan = [(5, 16), (6, 16)];
    let bus = [(0, 16), (1, 16), (2, 16), (12, 16)];
    let reference = [(P0_7, 46), (13, 46)];
    let mut rows = vec![
        afresh("A", with(&[]), 0, &[]),
        afresh("A, bytes 9 and 11 used", strapped, 0, &[(24, 0), (P0_7, 0)]),
        afresh("A, F, zone 1", with(&[&F, &ZONE_1]), 2, &fan),
        afresh("A, C, zone 1", with(&[&C, &ZONE_1]), 2, &[(3, 16), (4, 16)]),
        afresh("a chip select twice", with(&[spi, spi, &ZONE_1]), 3, &bus),
        afresh(
            "a reference twice",
            with(&[&ZONE_1, one, other]),
            3,
            &[(P0_7, 46), (13, 46), (14, 60)],
        ),
        forward("A", &[], &[], &[]),
        forward("A, zone 1, F", &[&ZONE_1, &F], &[], &[(5, 46), (6, 46)]),
        forward("A, F, zone 1", &[&F, &ZONE_1], &fan, &fan),
        forward("A, zone 1, a sensor", &[&ZONE_1, one], &[], &reference),
        forward(
            "a reference twice",
            &[&ZONE_1, one, other],
            &reference,
            &[(P0_7, 46), (13, 46), (14, 60)],
        ),
        // A sheet of another table: the last element alone is entered, and only where it is free.
        forward("A, F, zone 1", &[&F, &ZONE_1], &[], &[]),
        forward(
            "A, zone 1, F",
            &[&ZONE_1, &F],
            &[(5, 0)],
            &[(5, 0), (6, 46)],
        ),
    ];
    rows.extend(refused("A, F", &[&F], 13, 16));
    rows.extend(refused("A, F, F, zone 1", &[&F, &F, &ZONE_1], 10, 32));
    rows.extend(refused("one pin twice", &[&ZONE_1, one, one], 15, 60));
    rows
}

/// The text of A's sheet on the 320; on the 321 without the four lines of P2.4 to P2.7.
pub const TEXT_OF_A: &str =
    "P0.0\t-\nP0.1\t-\nP0.2\t-\nP0.3\t-\nP0.4\t-\nP0.5\t-\nP0.6\t-\nP0.7\t-\n\
    P1.0\tL\nP1.1\t-\nP1.2\t-\nP1.3\t-\nP1.4\t-\nP1.5\t-\nP1.6\t-\nP1.7\t-\n\
    P2.0\t-\nP2.1\t-\nP2.2\t-\nP2.3\t-\nP2.4\t-\nP2.5\t-\nP2.6\t-\nP2.7\t-\nP3.0\t-\n";

#[cfg(test)]
mod tests {
    use super::*;
    use crate::sheets::call::sheet_of;
    use second::{sheet_text, Chip, Settings};

    /// Needs no driver: the second program alone is held to the papers.
    #[test]
    fn the_second_program_gives_the_papers_sheets() {
        for row in rows() {
            for settings in Settings::ALL {
                let outcome = row.call.second(&row.table, settings.number());
                let answer = (outcome.answer.number(), outcome.answer.0 >> 8);
                assert_eq!(answer, (row.number, row.beside as u64), "{}", row.name);
                assert_eq!(sheet_of(&outcome.buffer), row.sheet, "{}", row.name);
            }
        }
        assert_eq!(sheet_text(&of(&[]), Chip::F320), TEXT_OF_A);
    }
}
