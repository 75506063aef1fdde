//! Tables in reports of 64 bytes, beside the whole reading of the same bytes and beside the second program's receiver; and in
//! single bytes beside one piece. On the 320 by the ordinary rules.

use crate::corpora;
use crate::rounds;
use crate::sides::{self, Side};
use ::second::{Receiver, Settings};
use std::cell::RefCell;

extern "C" {
    fn esa_receiving_start(
        numbers: *mut [usize; 16],
        described: *mut [u8; 30],
        under: *mut [u8; 30],
        settings: usize,
    ) -> u64;
    fn esa_receiving_piece(
        numbers: *mut [usize; 16],
        described: *mut [u8; 30],
        under: *mut [u8; 30],
        zones: *mut Flags,
        strings: *mut Flags,
        named_zones: *mut Flags,
        named_strings: *mut Flags,
        zone_places: *mut Places,
        string_places: *mut Places,
        piece: *const u8,
        length: usize,
    ) -> u64;
    fn esa_receiving_end(
        numbers: *mut [usize; 16],
        described: *const [u8; 30],
        zones: *const Flags,
        strings: *const Flags,
        named_zones: *const Flags,
        named_strings: *const Flags,
        zone_places: *const Places,
        string_places: *const Places,
    ) -> u64;
}

type Flags = [bool; 256];
type Places = [u16; 256];

/// As the header has it.
#[repr(C)]
struct State {
    numbers: [usize; 16],
    places: [Places; 2],
    flags: [Flags; 4],
    described: [u8; 30],
    under: [u8; 30],
}

/// As long as the header says.
const STATE: usize = number(env!("ESA_RECEIVING"));
const _: () = assert!(size_of::<State>() == STATE);

const SETTINGS: u64 = 0;
/// A piece that every table fits into.
const WHOLE: usize = 1 << 16;

thread_local! {
    /// Lent to every call of the proved receiver.
    static LENT: RefCell<State> = const { RefCell::new(State {
        numbers: [0xA5; 16],
        places: [[0xA5; 256]; 2],
        flags: [[true; 256]; 4],
        described: [0xA5; 30],
        under: [0xA5; 30],
    }) };
}

const fn number(digits: &str) -> usize {
    let (digits, mut number, mut at) = (digits.as_bytes(), 0, 0);
    while at < digits.len() {
        number = 10 * number + (digits[at] - b'0') as usize;
        at += 1;
    }
    number
}

/// The proved receiver, in pieces of so many bytes; the answer to the end.
#[inline(never)]
fn ours<const SIZE: usize>(table: &[u8]) -> u64 {
    LENT.with_borrow_mut(|state| {
        let State {
            numbers,
            places: [zp, sp],
            flags: [zs, ss, zu, su],
            described,
            under,
        } = state;
        // SAFETY: the calls read the piece, write to the state alone and keep nothing else.
        unsafe { esa_receiving_start(numbers, described, under, SETTINGS as usize) };
        for piece in table.chunks(SIZE) {
            // SAFETY: as above.
            unsafe {
                esa_receiving_piece(
                    numbers,
                    described,
                    under,
                    zs,
                    ss,
                    zu,
                    su,
                    zp,
                    sp,
                    piece.as_ptr(),
                    piece.len(),
                )
            };
        }
        // SAFETY: as above.
        unsafe { esa_receiving_end(numbers, described, zs, ss, zu, su, zp, sp) }
    })
}

/// The second program's receiver, likewise.
#[inline(never)]
fn second<const SIZE: usize>(table: &[u8]) -> u64 {
    let mut receiver = Receiver::start(Settings::of_number(SETTINGS));
    for piece in table.chunks(SIZE) {
        let _ = receiver.piece(piece);
    }
    match receiver.end() {
        Ok(count) => 256 * count as u64,
        Err(refusal) => u64::from(refusal.number) + 256 * refusal.place as u64,
    }
}

/// Prints the times and gives the number of differences.
pub fn report() -> usize {
    println!("\nReceiving, with a state of {STATE} bytes for every table.\n");
    println!("| Corpus | whole, ns | reports of 64, ns | ratio | second's in reports of 64, ns | ratio | differences |");
    println!("|---|---|---|---|---|---|---|");
    let [whole, _] = sides::both(Settings::of_number(SETTINGS));
    let differences = in_reports([whole, ours::<64>, second::<64>]);
    println!(
        "\n| Corpus | one piece, ns | single bytes, ns | ratio | second's ratio | differences |"
    );
    println!("|---|---|---|---|---|---|");
    let single = [ours::<WHOLE>, ours::<1>, second::<WHOLE>, second::<1>];
    differences + in_single_bytes(single)
}

fn in_reports(sides: [Side; 3]) -> usize {
    let mut all = 0;
    for corpus in corpora::all(Settings::of_number(SETTINGS)) {
        let differences = differences(&sides, &corpus.tables);
        let [whole, reports, second] = rounds::medians(sides, &corpus.tables);
        let [times, beside] = [reports / whole, reports / second];
        let name = corpus.name;
        println!("| {name} | {whole:.1} | {reports:.1} | {times:.2} | {second:.1} | {beside:.2} | {differences} |");
        all += differences;
    }
    all
}

fn in_single_bytes(sides: [Side; 4]) -> usize {
    let mut all = 0;
    for corpus in corpora::all(Settings::of_number(SETTINGS)) {
        let differences = differences(&sides, &corpus.tables);
        let [piece, bytes, second_piece, second_bytes] = rounds::medians(sides, &corpus.tables);
        let [times, second_times] = [bytes / piece, second_bytes / second_piece];
        let name = corpus.name;
        println!(
            "| {name} | {piece:.1} | {bytes:.1} | {times:.1} | {second_times:.1} | {differences} |"
        );
        all += differences;
    }
    all
}

/// The tables to which not all sides answer alike.
fn differences(sides: &[Side], tables: &[Vec<u8>]) -> usize {
    let differ = |table: &&Vec<u8>| sides.iter().any(|side| side(table) != sides[0](table));
    tables.iter().filter(differ).count()
}
