//! One table to its text, or one text to its table: how it is asked for, and what the second program does.

use crate::answer::Answer;
use crate::driver::Driver;
use crate::exchange::Asked;
use crate::outcome::{hex, text, Outcome};
use crate::question::Origin;
use crate::settings::of_writing;
use std::fmt;
use std::rc::Rc;

/// The driver's modes 21 and 22.
#[derive(Clone, Copy, Debug, PartialEq, Eq)]
pub enum Way {
    There,
    Back,
}

#[derive(Clone)]
pub struct Moving {
    pub origin: Origin,
    pub way: Way,
    pub settings: u64,
    /// The table, or the text.
    pub lent: Rc<[u8]>,
    /// Length of the buffer to write to.
    pub room: usize,
}

/// What the buffer holds before the call; no character of a text.
const UNWRITTEN: u8 = 0xA5;

impl Way {
    const MODES: [(u8, Way); 2] = [(21, Way::There), (22, Way::Back)];

    /// What a mode of the driver asks for; of the other modes none.
    pub fn of(mode: u8) -> Option<Way> {
        let found = Way::MODES.into_iter().find(|&(one, _)| one == mode);
        found.map(|(_, way)| way)
    }

    fn mode(self) -> u8 {
        match self {
            Way::There => 21,
            Way::Back => 22,
        }
    }

    /// As the C face names it.
    pub fn name(self) -> &'static str {
        match self {
            Way::There => "esa_hex",
            Way::Back => "esa_unhex",
        }
    }

    /// What the second program answers, and the buffer as it leaves it. Bit 1 of the settings is ignored.
    pub fn second(self, lent: &[u8], room: usize, settings: u64) -> Outcome {
        let chip = of_writing(settings);
        let mut buffer = vec![UNWRITTEN; room];
        let answer = match self {
            Way::There => second::hex(lent, chip, &mut buffer),
            Way::Back => second::unhex(lent, chip, &mut buffer),
        };
        let answer = answer.into();
        Outcome { answer, buffer }
    }
}

impl Moving {
    pub fn second(&self) -> Outcome {
        self.way.second(&self.lent, self.room, self.settings)
    }
}

impl Asked for Moving {
    type Reply = Outcome;

    /// Mode, length of what is lent, length of the buffer, settings, what is lent.
    fn request(&self, to: &mut Vec<u8>) {
        to.push(self.way.mode());
        to.extend_from_slice(&(self.lent.len() as u32).to_le_bytes());
        to.extend_from_slice(&(self.room as u64).to_le_bytes());
        to.extend_from_slice(&self.settings.to_le_bytes());
        to.extend_from_slice(&self.lent);
    }

    fn reply(&self, driver: &mut Driver) -> Result<Outcome, String> {
        let answer: Answer = driver.receive()?;
        let buffer = driver.receive_bytes(self.room)?;
        Ok(Outcome { answer, buffer })
    }

    fn lacking(&self, proved: &Outcome) -> Option<&'static str> {
        proved.answer.lacking(self.way.name())
    }

    fn one_by_one(&self) -> Vec<Moving> {
        vec![self.clone()]
    }
}

impl fmt::Display for Moving {
    fn fmt(&self, to: &mut fmt::Formatter) -> fmt::Result {
        let (name, settings, room) = (self.way.name(), self.settings, self.room);
        let lent = match self.way {
            Way::There => hex(&self.lent),
            Way::Back => text(&self.lent),
        };
        write!(
            to,
            "{}: {name}, settings {settings:X}h, room {room}: {lent}",
            self.origin
        )
    }
}
