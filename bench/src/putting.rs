//! Listing and rewriting, which put bytes into a lent buffer: how the time grows with the elements of mixed
//! tables, on both sides.

use crate::rounds;
use ::second::generator::mixed_of;
use ::second::listing::LISTING;
use ::second::random::Random;
use ::second::{Chip, Refusal, Settings};
use std::cell::RefCell;

extern "C" {
    fn esa_list(table: *const u8, length: usize, settings: u64, out: *mut [u8; LISTING]) -> usize;
    fn esa_rewrite(
        table: *const u8,
        length: usize,
        settings: u64,
        out: *mut u8,
        room: usize,
    ) -> u64;
}

/// Of the C face: the 320.
const SETTINGS: u64 = 0;
const CHIP: Chip = Chip::F320;

const ELEMENTS: [usize; 5] = [1, 8, 24, 48, 96];
/// Different tables of each number of elements.
const TABLES: usize = 200;

/// A table and the buffer that all sides write to. It is as long as the longest table.
struct Work {
    table: Vec<u8>,
    out: RefCell<Box<[u8; LISTING]>>,
}

type Side = fn(&Work) -> u64;

impl Work {
    fn of(table: Vec<u8>) -> Work {
        let out = RefCell::new(Box::new([0; LISTING]));
        Work { table, out }
    }

    /// What this side answers, and the whole buffer as it leaves it.
    fn left(&self, side: Side) -> (u64, [u8; LISTING]) {
        self.out.borrow_mut().fill(0xA5);
        (side(self), **self.out.borrow())
    }
}

#[inline(never)]
fn our_listing(work: &Work) -> u64 {
    let mut out = work.out.borrow_mut();
    // SAFETY: the call reads the table, writes to the 4,096 bytes alone and keeps nothing.
    unsafe { esa_list(work.table.as_ptr(), work.table.len(), SETTINGS, &mut **out) as u64 }
}

#[inline(never)]
fn second_listing(work: &Work) -> u64 {
    ::second::list(
        &work.table,
        Settings::from(CHIP),
        &mut work.out.borrow_mut(),
    ) as u64
}

#[inline(never)]
fn our_rewriting(work: &Work) -> u64 {
    let mut out = work.out.borrow_mut();
    let (table, length) = (work.table.as_ptr(), work.table.len());
    // SAFETY: the call reads the table, writes to the buffer alone and keeps nothing.
    unsafe { esa_rewrite(table, length, SETTINGS, out.as_mut_ptr(), out.len()) }
}

#[inline(never)]
fn second_rewriting(work: &Work) -> u64 {
    packed(::second::rewrite(
        &work.table,
        CHIP,
        &mut work.out.borrow_mut()[..],
    ))
}

#[inline(never)]
fn second_by_records(work: &Work) -> u64 {
    packed(::second::rewrite_by_records(
        &work.table,
        CHIP,
        &mut work.out.borrow_mut()[..],
    ))
}

fn packed(answer: Result<usize, Refusal>) -> u64 {
    match answer {
        Ok(length) => 256 * length as u64,
        Err(Refusal { number, place }) => u64::from(number) + 256 * place as u64,
    }
}

/// Prints the times and gives the number of differences.
pub fn listing() -> usize {
    println!("\nListing, {TABLES} tables of mixed kinds in each row.\n");
    println!("| Elements | bytes | ours, ns | second's, ns | ratio | differences |");
    println!("|---|---|---|---|---|---|");
    rows([our_listing, second_listing])
}

/// The second program both over the bytes, which is its own way, and from records.
pub fn rewriting() -> usize {
    println!("\nRewriting, the same tables.\n");
    println!(
        "| Elements | bytes | ours, ns | second's, ns | ratio | second's from records, ns | ratio | differences |"
    );
    println!("|---|---|---|---|---|---|---|---|");
    rows([our_rewriting, second_rewriting, second_by_records])
}

/// Ours comes first; each of the others with our time's ratio to its own.
fn rows<const SIDES: usize>(sides: [Side; SIDES]) -> usize {
    ELEMENTS.iter().map(|&elements| row(elements, sides)).sum()
}

fn row<const SIDES: usize>(elements: usize, sides: [Side; SIDES]) -> usize {
    let mut random = Random::new(1);
    let works: Vec<Work> = (0..TABLES)
        .map(|_| Work::of(mixed_of(&mut random, elements, CHIP.into())))
        .collect();
    let differs = |work: &&Work| {
        let ours = work.left(sides[0]);
        sides[1..].iter().any(|&side| work.left(side) != ours)
    };
    let differences = works.iter().filter(differs).count();
    let bytes: usize = works.iter().map(|work| work.table.len()).sum();
    let [ours, others @ ..] = &rounds::medians(sides, &works)[..] else {
        unreachable!("a side at least");
    };
    let others: String = others
        .iter()
        .map(|other| format!(" {other:.0} | {:.2} |", ours / other))
        .collect();
    let mean = bytes / TABLES;
    println!("| {elements} | {mean} | {ours:.0} |{others} {differences} |");
    differences
}
