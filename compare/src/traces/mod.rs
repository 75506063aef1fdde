//! Traces run through tables, cut in many ways, and single counts, on both sides.

mod asking;
mod cuttings;
mod edges;
mod known;
mod step;
mod tally;

use crate::comparison::HUGE;
use crate::exchange::Exchange;
use crate::options::Options;
use crate::question::Origin;
use crate::settings::writing;
use asking::Asking;
use second::access::walk;
use second::generator::{edge_counts, touches_the_four, trace};
use second::random::Random;
use second::{Chip, Settings};
use std::rc::Rc;

pub use asking::{of_count, of_steps, Asking as Traced, What};
pub use step::Step;
pub use tally::Tally;

/// For traces and cuts of chance.
const SEED: u64 = 314;
/// Of the trace of a table, at most.
const LINES: usize = 24;
/// Of the tables every so many has all edges of all its elements asked for, the others two of each.
const ALL_EDGES: u64 = 8;

pub struct Traces {
    exchange: Exchange<Asking, Tally>,
    random: Random,
}

impl Traces {
    pub fn start(options: &Options) -> Result<Traces, String> {
        Ok(Traces {
            exchange: Exchange::start(options)?,
            random: Random::new(SEED),
        })
    }

    /// On the chip that the table was made for; on both where one of the four pins is in a pin place, and now and then.
    pub fn table(
        &mut self,
        origin: Origin,
        turn: u64,
        made_for: Settings,
        table: &Rc<[u8]>,
    ) -> Result<(), String> {
        let both = turn.is_multiple_of(16) || touches_the_four(table);
        let chips = [made_for.chip, made_for.chip.other()];
        for chip in chips.into_iter().take(1 + usize::from(both)) {
            let settings = writing(chip, turn);
            let good = second::check(table, Settings::from(chip)).number() == 0;
            let (run, counts) = match good {
                true => (self.some_run(table), some_counts(table, turn)),
                false => self.refused(),
            };
            self.ask(origin, settings, table, run)?;
            self.ask(origin, settings, table, counts)?;
        }
        Ok(())
    }

    /// A trace of lines of every kind, cut in several ways.
    fn some_run(&mut self, table: &[u8]) -> What {
        let lines = self.random.below(LINES + 1);
        let trace = trace(&mut self.random, table, lines);
        What::Run {
            steps: cuttings::of_trace(&trace, &mut self.random),
            trace: trace.into(),
        }
    }

    /// A start that is refused, over what the state holds or over other bytes; and a count.
    fn refused(&mut self) -> (What, What) {
        let run = What::Run {
            trace: Rc::new([]),
            steps: vec![cuttings::start(&mut self.random)],
        };
        let k = self.random.below(3) as u64;
        (run, What::Counts(vec![(k, 70_000 * k)]))
    }

    /// Holds both sides to what follows from the papers, and compares at the edges.
    pub fn edges(&mut self) -> Result<(), String> {
        for (row, turn) in known::rows().into_iter().zip(0..) {
            for chip in Chip::BOTH {
                self.row(&row, writing(chip, turn))?;
            }
        }
        for (edge, turn) in edges::all().into_iter().zip(0..) {
            let settings = writing(edge.chip, turn);
            self.ask(Origin::Case(edge.name), settings, &edge.table, edge.what)?;
        }
        Ok(())
    }

    fn row(&mut self, row: &known::Row, settings: u64) -> Result<(), String> {
        let asking = Asking {
            origin: Origin::Known(row.name),
            settings,
            table: row.table.clone(),
            what: What::Run {
                trace: row.trace.clone(),
                steps: known::STEPS.to_vec(),
            },
        };
        let wanted = row.wanted();
        if row.second(settings) != wanted {
            let note = || format!("{asking}: the second program has another text");
            self.exchange.tally.differences.note(note);
        }
        self.exchange.ask(asking, wanted)
    }

    fn ask(
        &mut self,
        origin: Origin,
        settings: u64,
        table: &Rc<[u8]>,
        what: What,
    ) -> Result<(), String> {
        let asking = Asking {
            origin,
            settings,
            table: table.clone(),
            what,
        };
        let second = asking.second();
        self.exchange.ask(asking, second)
    }

    /// So far, the calls that are not yet answered left out.
    pub fn differences(&self) -> u64 {
        self.exchange.tally.differences.0
    }

    pub fn finish(self) -> Result<Tally, String> {
        self.exchange.finish()
    }
}

/// Counts around the edges of every element, all or two of each in turn; one past the last element, one far past it, and a count of more
/// bits than 32, mostly.
fn some_counts(table: &[u8], turn: u64) -> What {
    let mut counts = Vec::new();
    let mut elements = 0;
    for ((_, element), k) in walk(table).zip(0..) {
        let edges = edge_counts(element);
        let (from, most) = match turn.is_multiple_of(ALL_EDGES) {
            true => (0, edges.len()),
            false => ((turn + k) as usize, 2),
        };
        let edges = edges.iter().cycle().skip(from % edges.len()).take(most);
        counts.extend(edges.map(|&count| (k, count)));
        elements = k + 1;
    }
    counts.push((elements, turn % 70_000));
    counts.push((1 << 32, 0));
    let huge = HUGE[turn as usize / 4 % HUGE.len()];
    counts.push((turn % (elements + 1), huge));
    What::Counts(counts)
}
