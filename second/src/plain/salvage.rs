//! Saving once more, without a thought of what comes first: the reader is asked again and again, and what it names first is
//! put right, until it accepts.

use super::check;
use crate::answer::{number, Refusal, Verdict, DESCRIPTION_LENGTH, LARGEST_TABLE, MOST_ELEMENTS};
use crate::element::{id, word};
use crate::rewrite::rewrite_by_records;
use crate::salvage::{Change, Line};
use crate::settings::Chip;

/// What is left of the file: its bytes, and beside each the offset that it had.
struct Damaged {
    bytes: Vec<u8>,
    old: Vec<usize>,
    lines: Vec<Line>,
}

/// The new table and the lines, or 24 at 0.
pub fn salvage(file: &[u8], chip: Chip) -> Result<(Vec<u8>, Vec<Line>), Refusal> {
    let taken = file.len().min(LARGEST_TABLE);
    let mut damaged = Damaged {
        bytes: file[..taken].to_vec(),
        old: (0..taken).collect(),
        lines: Vec::new(),
    };
    loop {
        damaged.mend_length();
        match check(&damaged.bytes, chip.into()) {
            Verdict::Accepted(_) => break,
            Verdict::Refused { number, place } => damaged.put_right(number, place)?,
        }
    }
    let mut table = vec![0; damaged.bytes.len()];
    rewrite_by_records(&damaged.bytes, chip, &mut table)?;
    Ok((table, damaged.lines))
}

impl Damaged {
    fn mend_length(&mut self) {
        let length = self.bytes.len();
        if length >= DESCRIPTION_LENGTH {
            self.bytes[1] = (length % 256) as u8;
            self.bytes[2] = (length / 256) as u8;
        }
    }

    /// Of the description nothing can be put right but its string index.
    fn put_right(&mut self, number: u8, place: usize) -> Result<(), Refusal> {
        match (number, place) {
            (number::NO_STRING, _) => self.clear(place),
            (_, 0) => return Err(Refusal::at(number::NO_DESCRIPTION, 0)),
            (number::HEADER, _) => self.stop(place),
            (number::TOO_MANY, _) if self.elements_before(place) == MOST_ELEMENTS => {
                self.stop(place)
            }
            _ => self.leave_out(number, place),
        }
        Ok(())
    }

    fn line(&mut self, place: usize, number: u8, change: Change) {
        let place = self.old[place];
        self.lines.push(Line {
            place,
            number,
            change,
        });
    }

    /// The string index of the description, of a zone or of another element becomes 0.
    fn clear(&mut self, place: usize) {
        self.line(place, number::NO_STRING, Change::Cleared);
        let index = match (place, self.bytes[place]) {
            (0, _) | (_, id::ZONE) => 4,
            _ => 3,
        };
        self.bytes[place + index] = 0;
    }

    fn leave_out(&mut self, number: u8, place: usize) {
        self.line(place, number, Change::LeftOut);
        let behind = place + usize::from(word(&self.bytes, place + 1));
        self.bytes.drain(place..behind);
        self.old.drain(place..behind);
    }

    /// Nothing from here on is looked at; that is no change.
    fn stop(&mut self, place: usize) {
        self.bytes.truncate(place);
        self.old.truncate(place);
    }

    fn elements_before(&self, place: usize) -> usize {
        let mut at = DESCRIPTION_LENGTH;
        let mut count = 0;
        while at < place {
            at += usize::from(word(&self.bytes, at + 1));
            count += 1;
        }
        count
    }
}
