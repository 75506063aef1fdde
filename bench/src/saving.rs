//! Saving what can be saved, beside the check of the same bytes and beside the second program: good tables, and damaged ones.

use crate::corpora::{self, Corpus};
use crate::rounds;
use ::second::answer::LARGEST_TABLE;
use ::second::generator::{mixed, raw, wrecked};
use ::second::random::Random;
use ::second::{Chip, Settings, SALVAGE_LINES};
use std::cell::RefCell;
use std::rc::Rc;

extern "C" {
    fn esa_check(table: *const u8, length: usize, settings: u64) -> u64;
    fn esa_salvage(
        file: *const u8,
        length: usize,
        settings: u64,
        out: *mut u8,
        room: usize,
        lines: *mut [u8; SALVAGE_LINES],
    ) -> u64;
}

/// Of the C face: the 320.
const SETTINGS: u64 = 0;
const CHIP: Chip = Chip::F320;

/// The buffers that all sides write to; a new table is no longer than the longest.
struct Lent {
    out: [u8; LARGEST_TABLE],
    lines: [u8; SALVAGE_LINES],
}

impl Lent {
    const UNWRITTEN: Lent = Lent {
        out: [0xA5; LARGEST_TABLE],
        lines: [0xA5; SALVAGE_LINES],
    };
}

struct Work {
    file: Vec<u8>,
    lent: Rc<RefCell<Lent>>,
}

type Side = fn(&Work) -> u64;

impl Work {
    /// What this side answers, and both buffers as it leaves them.
    fn left(&self, side: Side) -> (u64, Vec<u8>) {
        *self.lent.borrow_mut() = Lent::UNWRITTEN;
        let answer = side(self);
        let lent = self.lent.borrow();
        (answer, [&lent.out[..], &lent.lines].concat())
    }
}

#[inline(never)]
fn ours(work: &Work) -> u64 {
    let lent = &mut *work.lent.borrow_mut();
    let (file, length, out) = (work.file.as_ptr(), work.file.len(), lent.out.as_mut_ptr());
    // SAFETY: the call reads the file, writes to the two buffers alone and keeps nothing.
    unsafe { esa_salvage(file, length, SETTINGS, out, LARGEST_TABLE, &mut lent.lines) }
}

#[inline(never)]
fn our_check(work: &Work) -> u64 {
    // SAFETY: the call reads the bytes lent and keeps nothing.
    unsafe { esa_check(work.file.as_ptr(), work.file.len(), SETTINGS) }
}

#[inline(never)]
fn second(work: &Work) -> u64 {
    let lent = &mut *work.lent.borrow_mut();
    match ::second::salvage(&work.file, CHIP, &mut lent.out, &mut lent.lines) {
        Ok(saved) => ((saved.lines as u64) << 24) + ((saved.table as u64) << 8),
        Err(refusal) => u64::from(refusal.number) + 256 * refusal.place as u64,
    }
}

/// The corpora of `check`; tables of 4,096 bytes of which the last element is of no kind, so that a check goes as far; and
/// files as a damaged chip gives them.
fn corpora() -> Vec<Corpus> {
    let settings = Settings::from(CHIP);
    let mut all = corpora::all(settings);
    let mut random = Random::new(1);
    let spoilt = |random: &mut Random| {
        let mut table = mixed(random, settings);
        let last = raw::cut(&table).last().map_or(0, <[u8]>::len);
        let at = table.len() - last;
        table[at] = 0x0F;
        table
    };
    all.push(Corpus {
        name: "200 tables of 4,096 bytes, all kinds, the last one damaged",
        tables: (0..200).map(|_| spoilt(&mut random)).collect(),
    });
    all.push(Corpus {
        name: "1,000 damaged files",
        tables: (0..1_000).map(|_| wrecked(&mut random, settings)).collect(),
    });
    all
}

/// Prints the times and gives the number of differences.
pub fn report() -> usize {
    println!("\nSaving. A check ends at the first refusal.\n");
    println!("| Corpus | ours, ns | check, ns | ratio | second's, ns | ratio | differences |");
    println!("|---|---|---|---|---|---|---|");
    corpora().into_iter().map(row).sum()
}

fn row(Corpus { name, tables }: Corpus) -> usize {
    let lent = Rc::new(RefCell::new(Lent::UNWRITTEN));
    let work = |file: Vec<u8>| Work {
        file,
        lent: lent.clone(),
    };
    let works: Vec<Work> = tables.into_iter().map(work).collect();
    let differs = |work: &&Work| work.left(ours) != work.left(second);
    let differences = works.iter().filter(differs).count();
    let [our_time, check, second_time] = rounds::medians([ours, our_check, second], &works);
    println!(
        "| {name} | {our_time:.1} | {check:.1} | {:.2} | {second_time:.1} | {:.2} | {differences} |",
        our_time / check,
        our_time / second_time
    );
    differences
}
