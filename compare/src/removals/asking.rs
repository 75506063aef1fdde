//! One table and the elements that are to be taken out of it, each of the table as it came: one request.

use crate::answer::Answer;
use crate::call::index;
use crate::driver::Driver;
use crate::exchange::Asked;
use crate::outcome::{hex, Outcome};
use crate::question::Origin;
use crate::settings::of_writing;
use std::fmt;
use std::rc::Rc;

#[derive(Clone)]
pub struct Asking {
    pub origin: Origin,
    pub settings: u64,
    pub table: Rc<[u8]>,
    pub elements: Vec<u64>,
}

/// What the second program answers, and the lent bytes as it leaves them.
pub fn second(table: &[u8], k: u64, settings: u64) -> Outcome {
    let mut buffer = table.to_vec();
    let answer = second::remove(&mut buffer, index(k), of_writing(settings)).into();
    Outcome { answer, buffer }
}

impl Asking {
    pub const MODE: u8 = 13;

    pub fn second(&self) -> Vec<Outcome> {
        let one = |&k| second(&self.table, k, self.settings);
        self.elements.iter().map(one).collect()
    }
}

impl Asked for Asking {
    type Reply = Vec<Outcome>;

    /// Mode, length of the table, number of elements, settings, the table, the elements' numbers.
    fn request(&self, to: &mut Vec<u8>) {
        to.push(Asking::MODE);
        to.extend_from_slice(&(self.table.len() as u32).to_le_bytes());
        to.extend_from_slice(&(self.elements.len() as u64).to_le_bytes());
        to.extend_from_slice(&self.settings.to_le_bytes());
        to.extend_from_slice(&self.table);
        to.extend(self.elements.iter().flat_map(|k| k.to_le_bytes()));
    }

    fn reply(&self, driver: &mut Driver) -> Result<Vec<Outcome>, String> {
        let mut one = || {
            let answer = driver.receive()?;
            let buffer = driver.receive_bytes(self.table.len())?;
            Ok(Outcome { answer, buffer })
        };
        self.elements.iter().map(|_| one()).collect()
    }

    fn lacking(&self, proved: &Vec<Outcome>) -> Option<&'static str> {
        let mut answers = proved.iter().map(|outcome| outcome.answer);
        answers.find_map(|answer: Answer| answer.lacking("esa_remove"))
    }

    fn one_by_one(&self) -> Vec<Asking> {
        let one = |&k| Asking {
            elements: vec![k],
            ..self.clone()
        };
        self.elements.iter().map(one).collect()
    }
}

impl fmt::Display for Asking {
    fn fmt(&self, to: &mut fmt::Formatter) -> fmt::Result {
        let (origin, settings) = (self.origin, self.settings);
        let elements: Vec<String> = self.elements.iter().map(u64::to_string).collect();
        let elements = elements.join(", ");
        let table = hex(&self.table);
        write!(
            to,
            "{origin}: take element {elements} out, settings {settings:X}h: {table}"
        )
    }
}
