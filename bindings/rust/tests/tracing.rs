//! Counts from the bench run through a table.

mod common;

use esa::{check, Chip, Settings, Trace};

const CHIP: Chip = Chip::C8051F320;

/// What comes of a trace in pieces of so many bytes.
fn traced(table: &[u8], trace: &[u8], size: usize) -> String {
    let mut state = Trace::start(table, CHIP).unwrap();
    let mut out = String::new();
    for piece in trace.chunks(size) {
        state.piece(piece, &mut out);
    }
    state.end(&mut out);
    out
}

#[test]
fn however_a_trace_is_cut_the_text_is_the_same() {
    let (table, trace) = (common::table("quiet-box"), common::words("tables/quiet-box.trace"));
    let whole = traced(&table, trace.as_bytes(), trace.len());
    let lines = trace.lines().count();
    assert_eq!(whole.lines().count(), lines + 15, "a line each, and a tally for each of fifteen elements");
    for size in [1, 2, 7, 64] {
        assert_eq!(traced(&table, trace.as_bytes(), size), whole, "by {size}");
    }
}

#[test]
fn a_long_piece_is_taken_whole() {
    let table = common::table("quiet-box");
    let trace = "5\t0\t10\n".repeat(5000);
    let out = traced(&table, trace.as_bytes(), trace.len());
    assert_eq!(out.lines().filter(|line| *line == "300").count(), 5000);
    assert!(out.contains("\n0\t300\t300\t5000\t0\t0\n"));
}

#[test]
fn a_refused_table_is_not_traced() {
    let table = common::table("spring");
    assert_eq!(Trace::start(&table, CHIP).unwrap_err(), check(&table, Settings::ordinary(CHIP)).unwrap_err());
}

#[test]
fn a_copy_goes_on_by_itself() {
    let mut one = Trace::start(&common::table("quiet-box"), CHIP).unwrap();
    let mut out = String::new();
    one.piece(b"5\t0\t1", &mut out);
    let mut two = one.clone();
    one.piece(b"0\n", &mut out);
    two.piece(b"1\n", &mut out);
    assert_eq!(out, "300\n330\n");
}
