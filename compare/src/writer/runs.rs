//! Whole tables: started, and every element of an accepted table appended in order.

use super::call::WriterCall;
use crate::settings::writing;
use second::access::walk;
use second::element::{read_description, read_element};
use second::generator::{mixed, valid};
use second::numbers::{put_description, put_element, Numbers};
use second::random::Random;
use second::Chip;

/// Numbers of junk, for what a record does not use.
pub fn noise(random: &mut Random) -> Numbers {
    std::array::from_fn(|_| random.byte())
}

/// The calls of one run, each with the buffer that the one before has left. As every call is
/// compared with every byte, the last buffer of the proved side is the one looked at here.
pub fn calls(random: &mut Random) -> Vec<WriterCall> {
    let chip = *random.pick(&Chip::BOTH);
    let table = if random.chance(10) {
        mixed(random, chip.into())
    } else {
        valid(random, chip.into())
    };
    let room = match random.below(4) {
        0 => table.len(),
        1 => table.len() - 1,
        2 => table.len() + random.between(1, 40),
        _ => (table.len() + 1).max(4_096 + random.below(10)),
    };
    run(&table, chip, random.bytes(room), random)
}

fn run(table: &[u8], chip: Chip, first: Vec<u8>, random: &mut Random) -> Vec<WriterCall> {
    let mut numbers = noise(random);
    put_description(&read_description(table, chip), chip, &mut numbers);
    let call = WriterCall::start(writing(chip, random.word()), numbers, first.clone());
    let mut buffer = call.second().buffer;
    let mut calls = vec![call];
    for (_, bytes) in walk(table) {
        let (element, part) = read_element(bytes, chip).expect("an element of an accepted table");
        let mut numbers = noise(random);
        put_element(&element, chip, &mut numbers);
        let settings = writing(chip, random.word());
        let call = WriterCall::append(bytes[0], settings, numbers, part.to_vec(), buffer);
        buffer = call.second().buffer;
        calls.push(call);
    }
    assert_eq!(
        buffer,
        wanted(table, first),
        "the second program's own writer"
    );
    calls
}

/// The table with its reserved places at zero and the rest untouched; without its last element where
/// a byte is missing.
fn wanted(table: &[u8], mut first: Vec<u8>) -> Vec<u8> {
    let cleared = second::cleared(table);
    if first.len() >= table.len() {
        first[..table.len()].copy_from_slice(&cleared);
        return first;
    }
    // The place of the last element; a table of 16 bytes has none, and is not even started.
    if let Some((last, _)) = walk(table).last() {
        first[..last].copy_from_slice(&cleared[..last]);
        first[1..3].copy_from_slice(&(last as u16).to_le_bytes());
    }
    first
}
