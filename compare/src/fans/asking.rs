//! One table and the zones that it is asked of, as one request: the bytes go to the driver once.

use crate::answer::Answer;
use crate::driver::Driver;
use crate::exchange::Asked;
use crate::outcome::hex;
use crate::question::Origin;
use second::{Accepted, Settings, Walked};
use std::fmt;
use std::rc::Rc;

#[derive(Clone)]
pub struct Asking {
    pub origin: Origin,
    pub settings: u64,
    pub table: Rc<[u8]>,
    pub zones: Vec<u8>,
}

/// What stands beside 0: twice the number of elements visited, and 1 for a fan.
fn packed(walked: Walked) -> usize {
    2 * walked.visited + usize::from(walked.met)
}

/// What the second program answers. The table is checked once, and every zone asked of it as accepted.
pub fn second(table: &[u8], zones: &[u8], settings: u64) -> Vec<Answer> {
    let accepted = Accepted::checked(table, Settings::of_number(settings));
    let answer = |&zone| Answer::from(accepted.map(|table| packed(table.fan(zone))));
    zones.iter().map(answer).collect()
}

impl Asking {
    pub const MODE: u8 = 9;

    pub fn second(&self) -> Vec<Answer> {
        second(&self.table, &self.zones, self.settings)
    }
}

impl Asked for Asking {
    type Reply = Vec<Answer>;

    /// Mode, length of the table, number of zones, settings, the table, the zones.
    fn request(&self, to: &mut Vec<u8>) {
        to.push(Asking::MODE);
        to.extend_from_slice(&(self.table.len() as u32).to_le_bytes());
        to.extend_from_slice(&(self.zones.len() as u64).to_le_bytes());
        to.extend_from_slice(&self.settings.to_le_bytes());
        to.extend_from_slice(&self.table);
        to.extend_from_slice(&self.zones);
    }

    fn reply(&self, driver: &mut Driver) -> Result<Vec<Answer>, String> {
        self.zones.iter().map(|_| driver.receive()).collect()
    }

    fn lacking(&self, proved: &Vec<Answer>) -> Option<&'static str> {
        proved.iter().find_map(|answer| answer.lacking("esa_fan"))
    }

    fn one_by_one(&self) -> Vec<Asking> {
        let one = |&zone| Asking {
            zones: vec![zone],
            ..self.clone()
        };
        self.zones.iter().map(one).collect()
    }
}

impl fmt::Display for Asking {
    fn fmt(&self, to: &mut fmt::Formatter) -> fmt::Result {
        write!(to, "{}: settings {:X}h: a fan", self.origin, self.settings)?;
        let (first, last) = (self.zones.first(), self.zones.last());
        if let (Some(first), Some(last)) = (first, last) {
            write!(to, " in zone {first}")?;
            if first != last {
                write!(to, " to {last}")?;
            }
        }
        write!(to, ": {}", hex(&self.table))
    }
}
