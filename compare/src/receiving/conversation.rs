//! A conversation: steps on the same bytes, which go to the driver once.

use super::step::Step;
use crate::answer::Answer;
use crate::driver::Driver;
use crate::exchange::Asked;
use crate::outcome::hex;
use crate::question::Origin;
use second::{Receiver, Settings};
use std::fmt;
use std::rc::Rc;

#[derive(Clone)]
pub struct Conversation {
    pub origin: Origin,
    pub settings: u64,
    pub bytes: Rc<[u8]>,
    pub steps: Vec<Step>,
}

impl Conversation {
    pub const MODE: u8 = 8;

    /// An answer to each step.
    pub fn second(&self) -> Vec<Answer> {
        let mut receiver = Receiver::start(Settings::of_number(self.settings));
        let steps = self.steps.iter();
        steps
            .map(|step| step.second(&mut receiver, &self.bytes, self.settings))
            .collect()
    }

    /// The steps from the last start before this one up to it.
    pub fn up_to(&self, at: usize) -> String {
        let start = |step: &Step| matches!(step, Step::Start(_));
        let from = self.steps[..=at].iter().rposition(start).unwrap_or(0);
        let steps: Vec<String> = self.steps[from..=at].iter().map(Step::to_string).collect();
        steps.join(", ")
    }
}

impl Asked for Conversation {
    type Reply = Vec<Answer>;

    /// Mode, length of the bytes, number of steps, settings, the bytes, the steps.
    fn request(&self, to: &mut Vec<u8>) {
        to.reserve(21 + self.bytes.len() + Step::LENGTH * self.steps.len());
        to.push(Conversation::MODE);
        to.extend_from_slice(&(self.bytes.len() as u32).to_le_bytes());
        to.extend_from_slice(&(self.steps.len() as u64).to_le_bytes());
        to.extend_from_slice(&self.settings.to_le_bytes());
        to.extend_from_slice(&self.bytes);
        for step in &self.steps {
            step.request(to);
        }
    }

    fn reply(&self, driver: &mut Driver) -> Result<Vec<Answer>, String> {
        self.steps.iter().map(|_| driver.receive()).collect()
    }

    fn lacking(&self, proved: &Vec<Answer>) -> Option<&'static str> {
        let name = "esa_receiving_start, esa_receiving_piece or esa_receiving_end";
        proved.iter().find_map(|answer| answer.lacking(name))
    }

    fn one_by_one(&self) -> Vec<Conversation> {
        vec![self.clone()]
    }
}

impl fmt::Display for Conversation {
    fn fmt(&self, to: &mut fmt::Formatter) -> fmt::Result {
        let (origin, settings) = (self.origin, self.settings);
        let bytes = hex(&self.bytes);
        write!(to, "{origin}: received, settings {settings:X}h: {bytes}")
    }
}
