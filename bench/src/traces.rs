//! Traces in pieces of 2,048 bytes, on both sides; and what the ready table of our own thermistor saves beside a calibration that is off
//! by one in a point. On the 320.

use crate::rounds;
use ::second::generator::{self, raw};
use ::second::random::Random;
use ::second::trace::{Trace, PIECE, TEXT};
use ::second::Chip;
use std::cell::RefCell;

extern "C" {
    /// Of compare/traces.c, over the header's calls: the bytes of a state, and the three calls.
    static trace_state: usize;
    fn trace_start(state: *mut u64, table: *const u8, length: usize, settings: u64) -> u64;
    fn trace_piece(state: *mut u64, piece: *const u8, length: usize, out: *mut u8) -> usize;
    fn trace_end(state: *const u64, out: *mut u8) -> usize;
}

/// Of the C face: the 320.
const SETTINGS: u64 = 0;
const CHIP: Chip = Chip::F320;

const MANY: usize = 1_000_000;
const SOME: usize = 100_000;

/// A table, a trace, and the buffers that both sides write to.
struct Work {
    table: Vec<u8>,
    trace: Vec<u8>,
    lines: usize,
    state: RefCell<Vec<u64>>,
    out: RefCell<Box<[u8; TEXT]>>,
}

impl Work {
    fn of(
        elements: &[Vec<u8>],
        lines: usize,
        make: fn(&mut Random, &[u8], usize) -> Vec<u8>,
    ) -> Work {
        let table = raw::table(&[&[raw::zone(1, 0)], elements].concat());
        let trace = make(&mut Random::new(3), &table, lines);
        // SAFETY: it is a constant of the C file.
        let bytes = unsafe { trace_state };
        Work {
            table,
            trace,
            lines,
            state: RefCell::new(vec![0; bytes.div_ceil(8)]),
            out: RefCell::new(Box::new([0; TEXT])),
        }
    }
}

/// Good lines, the elements behind the zone in turn, counts of chance.
fn good_lines(random: &mut Random, table: &[u8], lines: usize) -> Vec<u8> {
    let elements = ::second::access::walk(table).count() - 1;
    let line = |at: usize| {
        let count = random.below(1024);
        format!("{}\t{}\t{count}\n", at % 86_400, 1 + at % elements)
    };
    (0..lines).map(line).collect::<String>().into_bytes()
}

/// All texts go to `each`; the answer is how long they are together.
fn ours_with(work: &Work, mut each: impl FnMut(&[u8])) -> u64 {
    let (mut state, mut out) = (work.state.borrow_mut(), work.out.borrow_mut());
    let (mut all, state) = (0, state.as_mut_ptr());
    // SAFETY: the state is as long as the header says and aligned for its numbers; the calls read the table and the piece, write to the
    // state and to the 65,536 bytes alone, and keep nothing.
    unsafe { trace_start(state, work.table.as_ptr(), work.table.len(), SETTINGS) };
    for piece in work.trace.chunks(PIECE) {
        // SAFETY: as above.
        let length = unsafe { trace_piece(state, piece.as_ptr(), piece.len(), out.as_mut_ptr()) };
        each(&out[..length]);
        all += length as u64;
    }
    // SAFETY: as above.
    let length = unsafe { trace_end(state, out.as_mut_ptr()) };
    each(&out[..length]);
    all + length as u64
}

fn second_with(work: &Work, mut each: impl FnMut(&[u8])) -> u64 {
    let mut out = work.out.borrow_mut();
    let Ok(mut trace) = Trace::start(&work.table, CHIP) else {
        return 0;
    };
    let mut all = 0;
    for piece in work.trace.chunks(PIECE) {
        let length = trace.piece(piece, &mut out);
        each(&out[..length]);
        all += length as u64;
    }
    let length = trace.end(&mut out);
    each(&out[..length]);
    all + length as u64
}

#[inline(never)]
fn ours(work: &Work) -> u64 {
    ours_with(work, |_| ())
}

#[inline(never)]
fn second(work: &Work) -> u64 {
    second_with(work, |_| ())
}

/// Our own thermistor has 850, 700, 500, 320, 200; only the last point may be another.
fn thermistor(last: u8) -> Vec<u8> {
    let mut element = raw::analogue(1, 0x14);
    element[18] = last;
    element
}

/// Prints the times and gives the number of differences.
pub fn report() -> usize {
    println!("\nTraces, in pieces of {PIECE} bytes.\n");
    println!(
        "| Trace | ours, ms | second's, ms | ratio | ours, million lines a second | differences |"
    );
    println!("|---|---|---|---|---|---|");
    let bench = [
        raw::current(1, 0x14),
        raw::voltage(1, 0x15),
        raw::analogue(1, 0x16),
        raw::fan(1, 0x05, 0x06),
        raw::pump(1, 0x11, 0x12),
    ];
    let rows = [
        (
            "1,000,000 good lines, five elements",
            Work::of(&bench, MANY, good_lines),
        ),
        (
            "100,000 lines of every kind, a quarter damaged",
            Work::of(&bench, SOME, generator::trace),
        ),
        (
            "100,000 lines of our own thermistor",
            Work::of(&[thermistor(200)], SOME, good_lines),
        ),
        (
            "100,000 lines of one that ends at 201",
            Work::of(&[thermistor(201)], SOME, good_lines),
        ),
    ];
    let mut differences = 0;
    let times = rows.map(|(name, work)| {
        let (time, differs) = row(name, work);
        differences += differs;
        time
    });
    let [_, _, table, formula] = times;
    println!("\nOur own thermistor's line by the ready table: {table:.1} ns; by the formula, off by one in a point: {formula:.1} ns.");
    differences
}

/// Nanoseconds for one line of ours, and the number of differences.
fn row(name: &str, work: Work) -> (f64, usize) {
    let (mut our_text, mut second_text) = (Vec::new(), Vec::new());
    ours_with(&work, |text| our_text.extend_from_slice(text));
    second_with(&work, |text| second_text.extend_from_slice(text));
    let differences = usize::from(our_text != second_text);
    let lines = work.lines as f64;
    let [ours, second] = rounds::medians([ours as fn(&Work) -> u64, second], &[work]);
    println!(
        "| {name} | {:.2} | {:.2} | {:.2} | {:.1} | {differences} |",
        ours / 1e6,
        second / 1e6,
        ours / second,
        1e3 * lines / ours
    );
    (ours / lines, differences)
}
