//! One call of the writer: how it is asked for, and what the second program does.

use crate::answer::Answer;
use crate::driver::Driver;
use crate::exchange::Asked;
use crate::outcome::{hex, Outcome};
use crate::settings::of_writing;
use second::answer::number;
use second::numbers::{self, Numbers};
use second::Refusal;
use std::fmt;

/// What the call is asked to do; the driver's modes 3, 4 and 5.
#[derive(Clone, Copy, Debug, PartialEq, Eq)]
pub enum Does {
    Start,
    /// An element of this identifier.
    Append(u8),
    /// The table that stands in the part's stead, into the buffer.
    Rewrite,
}

impl Does {
    /// What a mode of the driver asks for; of the other modes none.
    pub fn of(mode: u8, id: u8) -> Option<Does> {
        Some(match mode {
            3 => Does::Start,
            4 => Does::Append(id),
            5 => Does::Rewrite,
            _ => return None,
        })
    }
}

#[derive(Clone, Debug, PartialEq, Eq)]
pub struct WriterCall {
    pub does: Does,
    pub settings: u64,
    pub numbers: Numbers,
    /// Of append alone; the table of a rewriting.
    pub part: Vec<u8>,
    /// As lent, before the call.
    pub buffer: Vec<u8>,
}

impl WriterCall {
    pub fn start(settings: u64, numbers: Numbers, buffer: Vec<u8>) -> WriterCall {
        WriterCall {
            does: Does::Start,
            settings,
            numbers,
            part: Vec::new(),
            buffer,
        }
    }

    pub fn append(
        id: u8,
        settings: u64,
        numbers: Numbers,
        part: Vec<u8>,
        buffer: Vec<u8>,
    ) -> WriterCall {
        WriterCall {
            does: Does::Append(id),
            settings,
            numbers,
            part,
            buffer,
        }
    }

    pub fn rewrite(settings: u64, table: Vec<u8>, buffer: Vec<u8>) -> WriterCall {
        WriterCall {
            does: Does::Rewrite,
            settings,
            numbers: Numbers::default(),
            part: table,
            buffer,
        }
    }

    /// What the second program answers, and the buffer as it leaves it.
    pub fn second(&self) -> Outcome {
        let mut buffer = self.buffer.clone();
        let answer = Answer::from(self.run_second(&mut buffer));
        Outcome { answer, buffer }
    }

    /// The C face alone knows identifiers of no kind: 7 with 0, and nothing else is looked at.
    fn run_second(&self, buffer: &mut [u8]) -> Result<usize, Refusal> {
        let chip = of_writing(self.settings);
        let id = match self.does {
            Does::Start => {
                let record = numbers::description(&self.numbers);
                return second::start(buffer, chip, &record);
            }
            Does::Rewrite => return second::rewrite(&self.part, chip, buffer),
            Does::Append(id) => id,
        };
        let element = numbers::element(id, &self.numbers);
        let element = element.ok_or(Refusal::at(number::IDENTIFIER, 0))?;
        second::append(buffer, chip, &element, &self.part)
    }
}

impl Asked for WriterCall {
    type Reply = Outcome;

    /// Mode, length of the buffer, identifier + 256 x length of the part, settings, then buffer, numbers
    /// and part.
    fn request(&self, to: &mut Vec<u8>) {
        let (mode, id) = match self.does {
            Does::Start => (3, 0),
            Does::Append(id) => (4, id),
            Does::Rewrite => (5, 0),
        };
        to.push(mode);
        to.extend_from_slice(&(self.buffer.len() as u32).to_le_bytes());
        to.extend_from_slice(&(u64::from(id) + 256 * self.part.len() as u64).to_le_bytes());
        to.extend_from_slice(&self.settings.to_le_bytes());
        to.extend_from_slice(&self.buffer);
        to.extend_from_slice(&self.numbers);
        to.extend_from_slice(&self.part);
    }

    fn reply(&self, driver: &mut Driver) -> Result<Outcome, String> {
        let answer = driver.receive()?;
        let buffer = driver.receive_bytes(self.buffer.len())?;
        Ok(Outcome { answer, buffer })
    }

    fn lacking(&self, proved: &Outcome) -> Option<&'static str> {
        proved.answer.lacking(match self.does {
            Does::Start => "esa_start",
            Does::Append(_) => "esa_append",
            Does::Rewrite => "esa_rewrite",
        })
    }

    fn one_by_one(&self) -> Vec<WriterCall> {
        vec![self.clone()]
    }
}

impl fmt::Display for WriterCall {
    fn fmt(&self, to: &mut fmt::Formatter) -> fmt::Result {
        match self.does {
            Does::Start => to.write_str("start")?,
            Does::Append(id) => write!(to, "append {id:02X}")?,
            Does::Rewrite => to.write_str("rewrite (the table stands as part)")?,
        }
        let [numbers, part, buffer] = [&self.numbers[..], &self.part, &self.buffer].map(hex);
        write!(to, ", settings {:X}h", self.settings)?;
        write!(to, ", numbers {numbers}, part '{part}', buffer '{buffer}'")
    }
}
