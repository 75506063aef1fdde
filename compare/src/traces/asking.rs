//! A trace run through a table, in steps; and counts asked for one by one. Table, trace and counts go to the driver once.

use super::step::{Running, Step};
use crate::answer::Answer;
use crate::driver::Driver;
use crate::exchange::Asked;
use crate::outcome::{hex, text, Outcome};
use crate::question::Origin;
use second::{Reading, Refusal, Settings};
use std::fmt;
use std::rc::Rc;

#[derive(Clone)]
pub struct Asking {
    pub origin: Origin,
    /// A trace ignores bit 1, its rules are always the ordinary ones; a single count does not, as every reading.
    pub settings: u64,
    pub table: Rc<[u8]>,
    pub what: What,
}

#[derive(Clone)]
pub enum What {
    Run {
        trace: Rc<[u8]>,
        steps: Vec<Step>,
    },
    /// Element and count.
    Counts(Vec<(u64, u64)>),
}

/// 0 and 4 times the reading, or 1 for under 0, 2 for over 100; or the refusal.
fn packed(reading: Result<Reading, Refusal>) -> Answer {
    Answer::from(reading.map(|reading| match reading {
        Reading::Value(value) => 4 * value as usize,
        Reading::Under => 1,
        Reading::Over => 2,
    }))
}

/// What the second program answers to a count.
pub fn of_count(table: &[u8], k: u64, count: u64, settings: u64) -> Answer {
    let k = usize::try_from(k).unwrap_or(usize::MAX);
    packed(second::reading(table, k, count, Settings::of_number(settings)))
}

/// What it answers to each step, with the text.
pub fn of_steps(table: &[u8], trace: &[u8], steps: &[Step], settings: u64) -> Vec<Outcome> {
    let mut running = Running::new();
    let steps = steps.iter();
    steps
        .map(|step| step.second(&mut running, table, trace, settings))
        .collect()
}

/// The largest text that a step gives is 32 times as long as the longest trace.
const LONGEST: usize = 1 << 23;

impl Asking {
    pub const TRACE: u8 = 30;
    pub const COUNTS: u8 = 31;

    pub fn second(&self) -> Vec<Outcome> {
        match &self.what {
            What::Run { trace, steps } => of_steps(&self.table, trace, steps, self.settings),
            What::Counts(counts) => {
                let answer = |&(k, count)| of_count(&self.table, k, count, self.settings);
                counts.iter().map(|one| answer(one).into()).collect()
            }
        }
    }

    /// What was asked up to this answer: of a run its steps from the last start on.
    pub fn up_to(&self, at: usize) -> String {
        match &self.what {
            What::Run { steps, .. } => {
                let start = |step: &Step| matches!(step, Step::Start(_));
                let from = steps[..=at].iter().rposition(start).unwrap_or(0);
                let steps: Vec<String> = steps[from..=at].iter().map(Step::to_string).collect();
                steps.join(", ")
            }
            What::Counts(counts) => format!("count {} at element {}", counts[at].1, counts[at].0),
        }
    }
}

impl Asked for Asking {
    type Reply = Vec<Outcome>;

    /// Mode, length of the table, k, settings, the table; of a run k is the length of the trace and, 2^32 times, the number of
    /// steps, and the trace and the steps follow; of counts k is their number, and they follow, 16 bytes each.
    fn request(&self, to: &mut Vec<u8>) {
        let (mode, k) = match &self.what {
            What::Run { trace, steps } => {
                let k = trace.len() as u64 + ((steps.len() as u64) << 32);
                (Asking::TRACE, k)
            }
            What::Counts(counts) => (Asking::COUNTS, counts.len() as u64),
        };
        to.push(mode);
        to.extend_from_slice(&(self.table.len() as u32).to_le_bytes());
        to.extend_from_slice(&k.to_le_bytes());
        to.extend_from_slice(&self.settings.to_le_bytes());
        to.extend_from_slice(&self.table);
        match &self.what {
            What::Run { trace, steps } => {
                to.extend_from_slice(trace);
                steps.iter().for_each(|step| step.request(to));
            }
            What::Counts(counts) => {
                let numbers = counts.iter().flat_map(|&(k, count)| [k, count]);
                to.extend(numbers.flat_map(u64::to_le_bytes));
            }
        }
    }

    fn reply(&self, driver: &mut Driver) -> Result<Vec<Outcome>, String> {
        match &self.what {
            What::Run { steps, .. } => {
                let outcome = |_| {
                    let answer = driver.receive()?;
                    let buffer = driver.receive_altered(LONGEST)?;
                    Ok(Outcome { answer, buffer })
                };
                steps.iter().map(outcome).collect()
            }
            What::Counts(counts) => {
                let answer = |_| Ok(driver.receive()?.into());
                counts.iter().map(answer).collect()
            }
        }
    }

    fn lacking(&self, proved: &Vec<Outcome>) -> Option<&'static str> {
        let name = match self.what {
            What::Run { .. } => "esa_trace_start, esa_trace_piece or esa_trace_end",
            What::Counts(_) => "esa_reading",
        };
        proved
            .iter()
            .find_map(|outcome| outcome.answer.lacking(name))
    }

    fn one_by_one(&self) -> Vec<Asking> {
        vec![self.clone()]
    }
}

impl fmt::Display for Asking {
    fn fmt(&self, to: &mut fmt::Formatter) -> fmt::Result {
        let (origin, settings) = (self.origin, self.settings);
        let table = hex(&self.table);
        match &self.what {
            What::Run { trace, .. } => {
                let trace = text(&trace[..trace.len().min(2_000)]);
                write!(
                    to,
                    "{origin}: trace, settings {settings:X}h: {table} and '{trace}'"
                )
            }
            What::Counts(_) => write!(to, "{origin}: reading, settings {settings:X}h: {table}"),
        }
    }
}
