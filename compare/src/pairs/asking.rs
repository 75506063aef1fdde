//! Two tables side by side: one call.

use crate::answer::Answer;
use crate::driver::Driver;
use crate::exchange::Asked;
use crate::outcome::{hex, Outcome};
use crate::question::Origin;
use crate::settings::of_writing;
use second::{Refused, DIFF};
use std::fmt;
use std::rc::Rc;

#[derive(Clone)]
pub struct Asking {
    pub origin: Origin,
    /// Bit 1 is ignored: the rules are always the archive's.
    pub settings: u64,
    pub one: Rc<[u8]>,
    pub two: Rc<[u8]>,
}

/// The refusal with its table in bits 25-24; or 0 and the text's length.
pub fn packed(answer: Result<usize, Refused>) -> Answer {
    match answer {
        Ok(length) => Answer::of(0, length),
        Err(Refused { table, refusal }) => {
            Answer::of(refusal.number, refusal.place + (usize::from(table) << 16))
        }
    }
}

/// What the second program answers, and its text.
pub fn second(one: &[u8], two: &[u8], settings: u64) -> Outcome {
    let text = second::diff_text(one, two, of_writing(settings));
    Outcome {
        answer: packed(text.as_ref().map(Vec::len).map_err(|&refused| refused)),
        buffer: text.unwrap_or_default(),
    }
}

impl Asking {
    pub const MODE: u8 = 15;

    pub fn second(&self) -> Outcome {
        second(&self.one, &self.two, self.settings)
    }
}

impl Asked for Asking {
    type Reply = Outcome;

    /// Mode, length of the first table, that of the second, settings, both tables.
    fn request(&self, to: &mut Vec<u8>) {
        to.push(Asking::MODE);
        to.extend_from_slice(&(self.one.len() as u32).to_le_bytes());
        to.extend_from_slice(&(self.two.len() as u64).to_le_bytes());
        to.extend_from_slice(&self.settings.to_le_bytes());
        to.extend_from_slice(&self.one);
        to.extend_from_slice(&self.two);
    }

    fn reply(&self, driver: &mut Driver) -> Result<Outcome, String> {
        let answer = driver.receive()?;
        let buffer = driver.receive_altered(DIFF)?;
        Ok(Outcome { answer, buffer })
    }

    fn lacking(&self, proved: &Outcome) -> Option<&'static str> {
        proved.answer.lacking("esa_diff")
    }

    fn one_by_one(&self) -> Vec<Asking> {
        vec![self.clone()]
    }
}

impl fmt::Display for Asking {
    fn fmt(&self, to: &mut fmt::Formatter) -> fmt::Result {
        let (origin, settings) = (self.origin, self.settings);
        let [one, two] = [&self.one, &self.two].map(|table| hex(table));
        write!(
            to,
            "{origin}: two tables side by side, settings {settings:X}h: {one} and {two}"
        )
    }
}
