//! Every field of every element, parts, texts and labels, every block and pair, on both sides.

mod batch;
mod parts;
mod reading;
mod tally;

use crate::comparison::HUGE;
use crate::exchange::Exchange;
use crate::options::Options;
use crate::question::Origin;
use batch::Batch;
use second::access::walk;
use second::element::{fixed_length, id};
use second::random::Random;
use second::{Settings, Verdict};
use std::rc::Rc;

pub use reading::Reading;
pub use tally::Tally;

/// Readings of one request; the driver takes no more than twice as many.
const MOST_READINGS: usize = 16_384;
/// Of a table with more elements only some calls are made on each.
const MANY: usize = 24;
/// Lengths of the lent names.
const NAMES: [u64; 5] = [0, 1, 6, 64, 70_000];
/// For the parts that are damaged or random.
const SEED: u64 = 2_311;

pub struct Fields {
    exchange: Exchange<Batch, Tally>,
    random: Random,
}

/// Of an accepted table every k up to one past the last and two far past it; of a refused one three.
fn places(verdict: Verdict, length: usize) -> Vec<u64> {
    let [one, other] = [0, 1].map(|more| HUGE[(length + more) % HUGE.len()]);
    match verdict {
        Verdict::Accepted(count) => (0..=count as u64).chain([one, other]).collect(),
        Verdict::Refused { .. } => vec![0, 1, one],
    }
}

/// All readings of a table; of an accepted one, if asked for, those of each part that has blocks too. Parts
/// know no settings.
fn batches(origin: Origin, settings: u64, table: &Rc<[u8]>, parts: bool) -> Vec<Batch> {
    let verdict = second::check(table, Settings::of_number(settings));
    let mut readings = vec![Reading::Describe];
    let places = places(verdict, table.len());
    let all = places.len() <= MANY;
    for (at, k) in places.into_iter().enumerate() {
        readings.push(Reading::Fields(k));
        let name = NAMES[(at + table.len()) % NAMES.len()];
        let others = [Reading::Part(k), Reading::Text(k), Reading::Label(k, name)];
        match all {
            true => readings.extend(others),
            // One of them in turn, as each call checks the whole table.
            false => readings.push(others[(at + table.len()) % others.len()]),
        }
    }
    let mut batches = vec![Batch {
        origin,
        settings,
        bytes: table.clone(),
        readings,
    }];
    if let (Verdict::Accepted(_), true) = (verdict, parts) {
        let elements = walk(table).map(|(_, bytes)| bytes);
        batches.extend(elements.filter_map(|bytes| of_part(origin, bytes)));
    }
    batches
}

/// The readings of an element's part, of 09h, 0Ah and 0Dh alone.
fn of_part(origin: Origin, element: &[u8]) -> Option<Batch> {
    let part = &element[fixed_length(element[0])..];
    let readings = match element[0] {
        id::CONTROLLER => parts::speed_readings(part),
        id::TACHOMETER => parts::register_readings(part),
        id::EXTERNAL_RGB => parts::colour_readings(part),
        _ => return None,
    };
    Some(Batch {
        origin,
        settings: 0,
        bytes: part.into(),
        readings,
    })
}

impl Fields {
    pub fn start(options: &Options) -> Result<Fields, String> {
        Ok(Fields {
            exchange: Exchange::start(options)?,
            random: Random::new(SEED),
        })
    }

    /// The table; if asked for, its own parts with blocks, and half of the time one part more that is damaged
    /// or random.
    pub fn table(
        &mut self,
        origin: Origin,
        settings: u64,
        table: &Rc<[u8]>,
        parts: bool,
    ) -> Result<(), String> {
        let batches = batches(origin, settings, table, parts);
        let own = batches[1..].last().map(|batch| batch.bytes.clone());
        for batch in batches {
            self.ask(batch)?;
        }
        if !parts || self.random.chance(50) {
            return Ok(());
        }
        let part = parts::some(own.as_deref(), &mut self.random);
        self.part(origin, part)
    }

    /// The parts at the edges of the calls on parts.
    pub fn part_edges(&mut self) -> Result<(), String> {
        let mut parts = parts::edges().into_iter();
        parts.try_for_each(|part| self.part(Origin::Case("a part at an edge"), part))
    }

    fn part(&mut self, origin: Origin, part: Vec<u8>) -> Result<(), String> {
        let readings = parts::all_readings(&part);
        let part: Rc<[u8]> = part.into();
        for some in readings.chunks(MOST_READINGS) {
            self.ask(Batch {
                origin,
                settings: 0,
                bytes: part.clone(),
                readings: some.to_vec(),
            })?;
        }
        Ok(())
    }

    fn ask(&mut self, batch: Batch) -> Result<(), String> {
        let second = batch.second();
        self.exchange.ask(batch, second)
    }

    /// So far, the calls that are not yet answered left out.
    pub fn differences(&self) -> u64 {
        self.exchange.tally.differences.0
    }

    pub fn finish(self) -> Result<Tally, String> {
        self.exchange.finish()
    }
}
