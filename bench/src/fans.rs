//! Is there a fan in this zone? How the time grows with the place of the hit, on both sides.

use crate::rounds;
use ::second::answer::MOST_ELEMENTS;
use ::second::element::id;
use ::second::generator::{mixed_of, raw};
use ::second::random::Random;
use ::second::{Accepted, Settings, Walked};

extern "C" {
    fn esa_check(table: *const u8, length: usize, settings: u64) -> u64;
    fn esa_fan(table: *const u8, length: usize, zone: u8, settings: u64) -> u64;
}

/// Of the C face: the 320 by the ordinary rules, as the second program's default.
const SETTINGS: u64 = 0;

const TABLES: usize = 200;
/// Where the one fan stands, counted from 0; `None` where another zone is asked for.
const HITS: [(&str, Option<usize>); 4] = [
    ("first", Some(0)),
    ("tenth", Some(9)),
    ("last", Some(MOST_ELEMENTS - 1)),
    ("none", None),
];

/// A table and the zone that is asked for.
struct Work {
    table: &'static [u8],
    accepted: Accepted<'static>,
    zone: u8,
}

impl Work {
    /// The table lives as long as the program, as its acceptance does.
    fn of(elements: &[Vec<u8>], zone: u8) -> Work {
        let table = raw::table(elements).leak();
        let accepted = Accepted::checked(table, Settings::default());
        Work {
            table,
            accepted: accepted.expect("a table made wrongly"),
            zone,
        }
    }
}

/// So many elements of all kinds, and one fan among them at this place or at the last: other fans, pumps and RGB
/// LEDs are unlit status LEDs instead. Gives its zone too.
fn with_one_fan(random: &mut Random, at: usize) -> (Vec<Vec<u8>>, u8) {
    let table = mixed_of(random, MOST_ELEMENTS, Settings::default());
    let mut elements: Vec<Vec<u8>> = raw::cut(&table).map(<[u8]>::to_vec).collect();
    let of_fan = elements.iter().position(|element| element[0] == id::FAN);
    let fan = elements.remove(of_fan.expect("a fan among all kinds"));
    for element in &mut elements {
        if [id::FAN, id::PUMP, id::RGB_LED].contains(&element[0]) {
            *element = raw::led(element[7], [0xFF; 3]);
        }
    }
    let zone = fan[7];
    elements.insert(at, fan);
    (elements, zone)
}

/// A zone that no descriptor declares.
fn undeclared(elements: &[Vec<u8>]) -> u8 {
    let declares = |zone: u8| move |element: &Vec<u8>| element[0] == id::ZONE && element[3] == zone;
    let free = |zone: &u8| !elements.iter().any(declares(*zone));
    (0..=255).find(free).expect("twelve zones at most")
}

fn work(random: &mut Random, hit: Option<usize>) -> Work {
    let (elements, zone) = with_one_fan(random, hit.unwrap_or(MOST_ELEMENTS - 1));
    let zone = match hit {
        Some(_) => zone,
        None => undeclared(&elements),
    };
    Work::of(&elements, zone)
}

fn packed(walked: Walked) -> u64 {
    256 * (2 * walked.visited as u64 + u64::from(walked.met))
}

#[inline(never)]
fn ours(work: &Work) -> u64 {
    // SAFETY: the call reads the bytes lent and keeps nothing.
    unsafe { esa_fan(work.table.as_ptr(), work.table.len(), work.zone, SETTINGS) }
}

#[inline(never)]
fn our_check(work: &Work) -> u64 {
    // SAFETY: as above.
    unsafe { esa_check(work.table.as_ptr(), work.table.len(), SETTINGS) }
}

#[inline(never)]
fn second(work: &Work) -> u64 {
    match ::second::fan(work.table, work.zone, Settings::default()) {
        Ok(walked) => packed(walked),
        Err(refusal) => u64::from(refusal.number) + 256 * refusal.place as u64,
    }
}

/// Of the table whose acceptance is shown.
#[inline(never)]
fn second_walk(work: &Work) -> u64 {
    packed(work.accepted.fan(work.zone))
}

/// Prints the times and gives the number of differences.
pub fn report() -> usize {
    println!("\nA fan in a zone, {TABLES} tables of {MOST_ELEMENTS} elements with one fan in each row.\n");
    println!("| Hit | ours, ns | check alone | second's, ns | ratio | walk alone | differences |");
    println!("|---|---|---|---|---|---|---|");
    HITS.into_iter().map(|(name, hit)| row(name, hit)).sum()
}

fn row(name: &str, hit: Option<usize>) -> usize {
    let mut random = Random::new(1);
    let works: Vec<Work> = (0..TABLES).map(|_| work(&mut random, hit)).collect();
    let visited = hit.map_or(MOST_ELEMENTS, |at| at + 1);
    let met = hit.is_some();
    let wanted = packed(Walked { met, visited });
    let differs = |work: &&Work| {
        [ours, second, second_walk]
            .iter()
            .any(|side| side(work) != wanted)
    };
    let differences = works.iter().filter(differs).count();
    let [our_time, check, second_time, walk] =
        rounds::medians([ours, our_check, second, second_walk], &works);
    println!(
        "| {name} | {our_time:.1} | {check:.1} | {second_time:.1} | {:.2} | {walk:.1} | {differences} |",
        our_time / second_time
    );
    differences
}
