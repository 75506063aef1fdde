//! The two writers: an accepted table, its records taken apart beforehand, is written anew in a
//! buffer of 4,096 bytes.

use crate::rounds;
use ::second::access::walk;
use ::second::answer::MOST_ELEMENTS;
use ::second::element::{read_description, read_element};
use ::second::generator;
use ::second::numbers::{put_description, put_element, Numbers};
use ::second::random::Random;
use ::second::record::{Description, Element};
use ::second::{cleared, Chip, Refusal};
use std::cell::RefCell;

extern "C" {
    fn esa_start(buffer: *mut u8, length: usize, settings: u64, numbers: *const Numbers) -> u64;
    fn esa_append(
        buffer: *mut u8,
        length: usize,
        id: u8,
        settings: u64,
        numbers: *const Numbers,
        part: *const u8,
        part_length: usize,
    ) -> u64;
}

/// Of the C face: the 320.
const SETTINGS: u64 = 0;
const CHIP: Chip = Chip::F320;

const TABLES: usize = 200;
const ROOM: usize = 4_096;

/// One element in both forms.
struct Piece {
    record: Element,
    id: u8,
    numbers: Numbers,
    part: Vec<u8>,
}

/// One table, taken apart, and the buffer that both sides write it to.
struct Work {
    description: Description,
    numbers: Numbers,
    pieces: Vec<Piece>,
    wanted: Vec<u8>,
    buffer: RefCell<Vec<u8>>,
}

impl Work {
    fn of(table: &[u8]) -> Work {
        let description = read_description(table, CHIP);
        let mut numbers = [0; 32];
        put_description(&description, CHIP, &mut numbers);
        Work {
            description,
            numbers,
            pieces: walk(table).map(|(_, bytes)| Piece::of(bytes)).collect(),
            wanted: cleared(table),
            buffer: RefCell::new(vec![0; ROOM]),
        }
    }

    /// False when this side writes the table, its reserved places zero, and answers its length.
    fn differs(&self, side: fn(&Work) -> u64) -> bool {
        self.buffer.borrow_mut().fill(0xA5);
        let length = self.wanted.len();
        side(self) != 256 * length as u64 || self.buffer.borrow()[..length] != self.wanted
    }
}

impl Piece {
    fn of(bytes: &[u8]) -> Piece {
        let (record, part) = read_element(bytes, CHIP).expect("an element of an accepted table");
        let mut numbers = [0; 32];
        put_element(&record, CHIP, &mut numbers);
        Piece {
            record,
            id: bytes[0],
            numbers,
            part: part.to_vec(),
        }
    }
}

/// The proved writer; the last answer.
#[inline(never)]
fn ours(work: &Work) -> u64 {
    let mut buffer = work.buffer.borrow_mut();
    let (to, room) = (buffer.as_mut_ptr(), buffer.len());
    // SAFETY: the calls write to the buffer alone, read what is lent and keep nothing.
    let mut answer = unsafe { esa_start(to, room, SETTINGS, &work.numbers) };
    for piece in &work.pieces {
        let (part, length) = (piece.part.as_ptr(), piece.part.len());
        let (id, numbers) = (piece.id, &piece.numbers);
        // SAFETY: as above.
        answer = unsafe { esa_append(to, room, id, SETTINGS, numbers, part, length) };
    }
    answer
}

/// The second program's writer; the last answer.
#[inline(never)]
fn second(work: &Work) -> u64 {
    let mut buffer = work.buffer.borrow_mut();
    let mut answer = ::second::start(&mut buffer, CHIP, &work.description);
    for piece in &work.pieces {
        answer = ::second::append(&mut buffer, CHIP, &piece.record, &piece.part);
    }
    match answer {
        Ok(length) => 256 * length as u64,
        Err(Refusal { number, place }) => u64::from(number) + 256 * place as u64,
    }
}

/// Tables of 4,096 bytes with all kinds and as many elements as a table may have.
fn full_tables() -> Vec<Work> {
    let mut random = Random::new(1);
    std::iter::repeat_with(|| generator::mixed(&mut random, CHIP.into()))
        .filter(|table| walk(table).count() == MOST_ELEMENTS)
        .take(TABLES)
        .map(|table| Work::of(&table))
        .collect()
}

/// Prints the times and gives the number of differences.
pub fn report() -> usize {
    let works = full_tables();
    let differs = |work: &&Work| work.differs(ours) || work.differs(second);
    let differences = works.iter().filter(differs).count();
    let [our_time, second_time] = rounds::medians([ours, second], &works);
    println!("\nWriting: one table started and all its elements appended, records ready.\n");
    println!("| Corpus | ours, ns | second's, ns | ratio | differences |\n|---|---|---|---|---|");
    let corpus = format!("{TABLES} tables of 4,096 bytes, {MOST_ELEMENTS} elements of all kinds");
    let ratio = our_time / second_time;
    println!("| {corpus} | {our_time:.1} | {second_time:.1} | {ratio:.2} | {differences} |");
    differences
}
