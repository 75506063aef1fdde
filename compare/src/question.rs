//! One call on one table.

use crate::call::Call;
use crate::driver::{Driver, LISTING_ROOM};
use crate::exchange::Asked;
use crate::outcome::{hex, Outcome};
use std::fmt;
use std::rc::Rc;

/// Where a table comes from, so that it can be made again.
#[derive(Clone, Copy, Debug)]
pub enum Origin {
    Known(&'static str),
    Case(&'static str),
    Seeded { seed: u64, at: u64 },
    Built { seed: u64, at: u64 },
    Wrecked { seed: u64, at: u64 },
}

impl fmt::Display for Origin {
    fn fmt(&self, to: &mut fmt::Formatter) -> fmt::Result {
        match self {
            Origin::Known(name) => write!(to, "known table '{name}'"),
            Origin::Case(name) => write!(to, "case '{name}'"),
            Origin::Seeded { seed, at } => write!(to, "seed {seed}, table {at}"),
            Origin::Built { seed, at } => write!(to, "built beside seed {seed}, table {at}"),
            Origin::Wrecked { seed, at } => {
                write!(to, "damaged file beside seed {seed}, table {at}")
            }
        }
    }
}

#[derive(Clone)]
pub struct Question {
    pub origin: Origin,
    pub call: Call,
    pub settings: u64,
    /// Shared by all calls on it.
    pub table: Rc<[u8]>,
}

impl Asked for Question {
    type Reply = Outcome;

    fn request(&self, to: &mut Vec<u8>) {
        self.call.request(&self.table, self.settings, to);
    }

    fn reply(&self, driver: &mut Driver) -> Result<Outcome, String> {
        let answer = driver.receive()?;
        let buffer = match self.call {
            Call::List => driver.receive_altered(LISTING_ROOM)?,
            _ => Vec::new(),
        };
        Ok(Outcome { answer, buffer })
    }

    fn lacking(&self, proved: &Outcome) -> Option<&'static str> {
        proved.answer.lacking(self.call.name())
    }

    fn one_by_one(&self) -> Vec<Question> {
        vec![self.clone()]
    }
}

impl fmt::Display for Question {
    fn fmt(&self, to: &mut fmt::Formatter) -> fmt::Result {
        let (origin, call, settings) = (self.origin, self.call, self.settings);
        let table = hex(&self.table);
        write!(to, "{origin}: {call}, settings {settings:X}h: {table}")
    }
}
