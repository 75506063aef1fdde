//! All readings of one table, or of one part, as one request: the bytes go to the driver once.

use super::reading::Reading;
use crate::answer::Answer;
use crate::driver::Driver;
use crate::exchange::Asked;
use crate::outcome::{hex, Outcome};
use crate::question::Origin;
use std::fmt;
use std::rc::Rc;

pub struct Batch {
    pub origin: Origin,
    /// Those on a part do not look at them.
    pub settings: u64,
    /// The table or the part.
    pub bytes: Rc<[u8]>,
    pub readings: Vec<Reading>,
}

/// The replies to all readings, end to end.
pub struct Replies(pub Vec<u8>);

impl Batch {
    const MODE: u8 = 7;

    pub fn second(&self) -> Replies {
        let mut replies = Vec::with_capacity(self.reply_length());
        for reading in &self.readings {
            reading.second(&self.bytes, self.settings, &mut replies);
        }
        Replies(replies)
    }

    fn reply_length(&self) -> usize {
        self.readings.iter().map(|one| one.reply_length()).sum()
    }

    /// Each reading with its own piece of the replies.
    pub fn pieces<'r>(
        &'r self,
        replies: &'r Replies,
    ) -> impl Iterator<Item = (Reading, Piece<'r>)> + 'r {
        let mut rest = &replies.0[..];
        self.readings.iter().map(move |&reading| {
            let (piece, after) = rest.split_at(reading.reply_length());
            rest = after;
            (reading, Piece(piece))
        })
    }
}

/// The reply to one reading: 8 bytes of the answer, and the numbers, if it has them.
#[derive(Clone, Copy, PartialEq, Eq)]
pub struct Piece<'r>(&'r [u8]);

impl Piece<'_> {
    pub fn answer(self) -> Answer {
        let word = self.0.first_chunk().expect("8 bytes at least");
        Answer(u64::from_le_bytes(*word))
    }

    pub fn outcome(self) -> Outcome {
        Outcome {
            answer: self.answer(),
            buffer: self.0[8..].to_vec(),
        }
    }
}

impl Asked for Batch {
    type Reply = Replies;

    /// Mode, length of the bytes, number of readings, settings, the bytes, the readings.
    fn request(&self, to: &mut Vec<u8>) {
        to.reserve(21 + self.bytes.len() + Reading::LENGTH * self.readings.len());
        to.push(Batch::MODE);
        to.extend_from_slice(&(self.bytes.len() as u32).to_le_bytes());
        to.extend_from_slice(&(self.readings.len() as u64).to_le_bytes());
        to.extend_from_slice(&self.settings.to_le_bytes());
        to.extend_from_slice(&self.bytes);
        for reading in &self.readings {
            reading.request(to);
        }
    }

    fn reply(&self, driver: &mut Driver) -> Result<Replies, String> {
        driver.receive_bytes(self.reply_length()).map(Replies)
    }

    fn lacking(&self, proved: &Replies) -> Option<&'static str> {
        self.pieces(proved)
            .find_map(|(reading, piece)| piece.answer().lacking(reading.name()))
    }

    fn one_by_one(&self) -> Vec<Batch> {
        let one = |&reading| Batch {
            origin: self.origin,
            settings: self.settings,
            bytes: self.bytes.clone(),
            readings: vec![reading],
        };
        self.readings.iter().map(one).collect()
    }
}

impl fmt::Display for Batch {
    fn fmt(&self, to: &mut fmt::Formatter) -> fmt::Result {
        write!(to, "{}: settings {:X}h", self.origin, self.settings)?;
        for reading in &self.readings {
            write!(to, ": {reading}")?;
        }
        write!(to, ": {}", hex(&self.bytes))
    }
}
