//! Taking a part out, on both sides: every element of every table that is accepted, on both chips.

mod asking;
mod known;
mod tally;

use crate::comparison::HUGE;
use crate::exchange::Exchange;
use crate::options::Options;
use crate::question::Origin;
use crate::settings::{of_writing, writing};
use asking::Asking;
use second::{Chip, Verdict};
use std::rc::Rc;

pub use asking::{second, Asking as Removal};
pub use tally::Tally;

pub struct Removals(Exchange<Asking, Tally>);

/// Up to so many elements all are taken out in turn; of more every third, which one first in turn.
const ALL_OF: u64 = 24;

/// The elements of an accepted table, one past the last, the next, or one far past it. The refusals know no element: a
/// refused table is asked for one.
fn elements(table: &[u8], turn: u64, settings: u64) -> Vec<u64> {
    let huge = HUGE[turn as usize / 2 % HUGE.len()];
    let Verdict::Accepted(count) = second::check(table, of_writing(settings).into()) else {
        return vec![[0, huge][turn as usize % 2]];
    };
    let count = count as u64;
    let (first, step) = match count {
        0..=ALL_OF => (0, 1),
        _ => (turn % 3, 3),
    };
    let past = [count, count + 1, huge][turn as usize % 3];
    let within = (first..count).step_by(step);
    within.chain([past]).collect()
}

impl Removals {
    pub fn start(options: &Options) -> Result<Removals, String> {
        Exchange::start(options).map(Removals)
    }

    /// On both chips: what one of them refuses the other may take.
    pub fn table(&mut self, origin: Origin, turn: u64, table: &Rc<[u8]>) -> Result<(), String> {
        for chip in Chip::BOTH {
            let settings = writing(chip, turn);
            let elements = elements(table, turn, settings);
            let asking = Asking {
                origin,
                settings,
                table: table.clone(),
                elements,
            };
            let second = asking.second();
            self.0.ask(asking, second)?;
        }
        Ok(())
    }

    /// Holds both sides to what follows from the papers, on both chips and with bit 1 set and not.
    pub fn known(&mut self) -> Result<(), String> {
        for (row, turn) in known::rows().into_iter().zip(0..) {
            for chip in Chip::BOTH {
                self.row(&row, writing(chip, turn))?;
            }
        }
        Ok(())
    }

    fn row(&mut self, row: &known::Row, settings: u64) -> Result<(), String> {
        let asking = Asking {
            origin: Origin::Known(row.name),
            settings,
            table: row.table.clone(),
            elements: vec![row.k],
        };
        let second = asking.second();
        if second[0] != row.wanted {
            self.0.tally.differences.note(|| {
                let answer = second[0].answer;
                format!("{asking}: the second program answers {answer}, or leaves other bytes")
            });
        }
        self.0.ask(asking, vec![row.wanted.clone()])
    }

    /// So far, the calls that are not yet answered left out.
    pub fn differences(&self) -> u64 {
        self.0.tally.differences.0
    }

    pub fn finish(self) -> Result<Tally, String> {
        self.0.finish()
    }
}
