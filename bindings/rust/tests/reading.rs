//! What stands in a table, and inside a variable part.

mod common;

use esa::{block, check, colour, colours, describe, element, entries, entry, fan, fields, label, pair, part, part_length, text};
use esa::{sheet, sheet_forward, Chip, Claimant, Fan, Kind, Label, Rule, Settings, Sheet};

const READ: Settings = Settings::ordinary(Chip::C8051F320);

/// The number of the first element of a kind in the table that has every kind.
fn first(table: &[u8], kind: Kind) -> usize {
    (0..14).find(|&k| element(table, k, READ) == Ok(kind)).unwrap()
}

#[test]
fn every_kind_is_read() {
    let table = common::table("every-kind");
    for kind in Kind::ALL {
        let k = first(&table, kind);
        let (read, _) = fields(&table, k, READ).unwrap();
        let place = part(&table, k, READ).unwrap();
        assert_eq!(read, kind);
        assert_eq!(part_length(&table, k, READ), place.len());
    }
    assert_eq!(element(&table, 14, READ).unwrap_err().rule, Rule::PastTheLast);
    assert_eq!(part_length(&table, 14, READ), 0);
}

#[test]
fn the_parts_follow_one_another_to_the_end() {
    let table = common::table("every-kind");
    let ends: Vec<usize> = (0..14).map(|k| part(&table, k, READ).unwrap().end).collect();
    assert!(ends.windows(2).all(|two| two[0] < two[1]));
    assert_eq!(ends[13], table.len());
}

#[test]
fn blocks_are_read_in_their_parts() {
    let table = common::table("every-kind");
    let lent = |kind| &table[part(&table, first(&table, kind), READ).unwrap()];
    let speeds = lent(Kind::PwmController);
    let pairs = block(speeds, 0).unwrap().entries;
    assert!(pairs > 0 && pair(speeds, 0, 0).is_ok());
    assert_eq!(pair(speeds, 0, usize::from(pairs)).unwrap_err().rule, Rule::PastTheLast);
    let lists = lent(Kind::Tachometer);
    let many: usize = (0..2).map(|w| entries(lists, w).unwrap()).sum();
    assert_eq!(lists.len(), 2 + 4 * many);
    assert_eq!(entry(lists, 2, 0).unwrap_err().rule, Rule::PastTheLast);
    let lamps = lent(Kind::ExternalRgbLed);
    let many: usize = (0..3).map(|w| colours(lamps, w).unwrap()).sum();
    assert_eq!(lamps.len(), 3 + 4 * many);
    assert_eq!(colour(lamps, 3, 0).unwrap_err().rule, Rule::PastTheLast);
}

#[test]
fn names_are_texts_of_the_table_or_the_lent_one() {
    let table = common::table("quiet-box");
    let string = first(&table, Kind::String);
    let own = text(&table, string, READ).unwrap();
    assert_eq!(label(&table, string, READ, b""), Ok(Label::Text { place: own.start, bytes: &table[own] }));
    assert!(text(&table, 0, READ).unwrap().is_empty(), "a fan is no string");
    let boxes = label(&table, string, READ, b"").unwrap().read();
    assert_eq!(boxes.as_deref(), Some("Quiet box"));
    let long = vec![7; 1 << 24]; // longer than the answer's bits can say
    assert_eq!(label(&common::table("this-month"), 15, READ, &long), Ok(Label::Lent(&long)));
}

#[test]
fn a_refused_table_is_refused_by_every_call() {
    let table = common::table("spring");
    let refusal = check(&table, READ).unwrap_err();
    assert_eq!(describe(&table, READ).unwrap_err(), refusal);
    assert_eq!(element(&table, 0, READ).unwrap_err(), refusal);
    assert_eq!(fields(&table, 0, READ).unwrap_err(), refusal);
    assert_eq!(part(&table, 0, READ).unwrap_err(), refusal);
    assert_eq!(text(&table, 0, READ).unwrap_err(), refusal);
    assert_eq!(label(&table, 0, READ, b"").unwrap_err(), refusal);
    assert_eq!(fan(&table, 1, READ).unwrap_err(), refusal);
    let mut pins = Sheet([3; 25]);
    assert_eq!(sheet(&table, READ.chip, &mut pins).unwrap_err(), refusal);
    assert_eq!(sheet_forward(&table, READ.chip, &mut pins).unwrap_err(), refusal);
    assert_eq!(pins, Sheet([3; 25]));
}

#[test]
fn fans_and_pumps_are_found() {
    let table = common::table("water-kit");
    let count = check(&table, READ).unwrap();
    assert_eq!(fan(&table, 255, READ), Ok(Fan { found: false, visited: count }));
    assert!((0..=255).any(|zone| fan(&table, zone, READ).unwrap().found));
}

#[test]
fn a_sheet_is_brought_forward_by_the_last_element() {
    let table = common::table("this-month");
    let last = part(&table, 15, READ).unwrap().end - 11;
    let mut before = table[..last].to_vec();
    before[1..3].copy_from_slice(&(last as u16).to_le_bytes());
    let (mut pins, mut afresh) = (Sheet::new(), Sheet::new());
    sheet(&before, READ.chip, &mut pins).unwrap();
    assert_eq!(pins.claimant(2, 1), Some(Claimant::Free));
    sheet_forward(&table, READ.chip, &mut pins).unwrap();
    sheet(&table, READ.chip, &mut afresh).unwrap();
    assert_eq!(pins, afresh);
    assert_eq!(pins.claimant(2, 1), Some(Claimant::At(last as u16)));
}
