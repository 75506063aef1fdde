//! One file to be saved, with so much room: one request.

use crate::answer::Answer;
use crate::driver::Driver;
use crate::exchange::Asked;
use crate::outcome::{hex, text};
use crate::question::Origin;
use crate::settings::of_writing;
use second::{Refusal, Saved, SALVAGE_LINES};
use std::fmt;
use std::rc::Rc;

#[derive(Clone)]
pub struct Asking {
    pub origin: Origin,
    /// Bit 1 is ignored: the rules are always the ordinary ones.
    pub settings: u64,
    pub file: Rc<[u8]>,
    /// Length of the buffer for the table.
    pub room: usize,
}

/// What a call leaves behind, and what comes of the new table: with a refusal 0 and 0.
#[derive(Clone, Debug, PartialEq, Eq)]
pub struct Reply {
    pub answer: Answer,
    /// The whole buffer for the table.
    pub out: Vec<u8>,
    /// The buffer for the lines as far as it is altered.
    pub lines: Vec<u8>,
    /// The reader's answer to the new table.
    pub checked: Answer,
    /// Saved once more.
    pub again: Answer,
}

/// What the buffer for the table holds before the call.
pub const UNWRITTEN: u8 = 0xA5;
/// As the driver says that a saved table does not come out as it is, and without a line.
const NOT_THE_SAME: Answer = Answer(u64::MAX - 2);

/// The length of the table in bits 8-23, that of the text above them; or the refusal.
pub fn packed(answer: Result<Saved, Refusal>) -> Answer {
    answer.map(|saved| saved.table + (saved.lines << 16)).into()
}

/// What the buffer for the lines holds before the call: no character of a text.
static BEFORE: [u8; SALVAGE_LINES] = {
    let mut bytes = [0; SALVAGE_LINES];
    let mut at = 0;
    while at < SALVAGE_LINES {
        bytes[at] = 0x80 + (at % 127) as u8;
        at += 1;
    }
    bytes
};

/// As far as a byte of it is altered, or has been answered for.
fn altered(lines: &[u8], answered: usize) -> &[u8] {
    let mut pairs = lines[answered..].iter().zip(&BEFORE[answered..]);
    let more = match lines[answered..] == BEFORE[answered..] {
        true => 0,
        false => 1 + pairs.rposition(|(now, before)| now != before).unwrap_or(0),
    };
    &lines[..answered + more]
}

/// What the second program answers, and both buffers as it leaves them.
fn called(file: &[u8], settings: u64, room: usize) -> (Answer, Vec<u8>, Vec<u8>) {
    let mut out = vec![UNWRITTEN; room];
    let mut lines = BEFORE;
    let answer = second::salvage(file, of_writing(settings), &mut out, &mut lines);
    let text = answer.map_or(0, |saved| saved.lines);
    (packed(answer), out, altered(&lines, text).to_vec())
}

/// The same with what comes of the new table.
pub fn second(file: &[u8], settings: u64, room: usize) -> Reply {
    let (answer, out, lines) = called(file, settings, room);
    let table = &out[..saved(answer).unwrap_or(0)];
    let (checked, again) = match answer.number() {
        0 => (checked(table, settings), saved_again(table, settings)),
        _ => (Answer(0), Answer(0)),
    };
    Reply {
        answer,
        out,
        lines,
        checked,
        again,
    }
}

/// The length of the new table, where there is one.
pub fn saved(answer: Answer) -> Option<usize> {
    (answer.number() == 0).then_some((answer.0 >> 8 & 0xFFFF) as usize)
}

fn checked(table: &[u8], settings: u64) -> Answer {
    let verdict = second::check(table, of_writing(settings).into());
    Answer::of(verdict.number(), verdict.beside())
}

fn saved_again(table: &[u8], settings: u64) -> Answer {
    let (answer, out, lines) = called(table, settings, table.len());
    match out == table && lines.is_empty() {
        true => answer,
        false => NOT_THE_SAME,
    }
}

impl Asking {
    pub const MODE: u8 = 14;

    pub fn second(&self) -> Reply {
        second(&self.file, self.settings, self.room)
    }
}

impl Reply {
    /// As the driver sends it.
    pub fn bytes(&self) -> Vec<u8> {
        let [answer, checked, again] =
            [self.answer, self.checked, self.again].map(|one| one.0.to_le_bytes());
        let length = (self.lines.len() as u64).to_le_bytes();
        [
            &answer,
            &self.out[..],
            &length,
            &self.lines,
            &checked,
            &again,
        ]
        .concat()
    }

    /// What is saved is accepted, and saved once more comes out as it is, without a line.
    pub fn keeps_its_word(&self) -> bool {
        saved(self.answer)
            .is_none_or(|length| self.checked.number() == 0 && self.again == Answer::of(0, length))
    }
}

impl Asked for Asking {
    type Reply = Reply;

    /// Mode, length of the file, length of the buffer for the table, settings, the file.
    fn request(&self, to: &mut Vec<u8>) {
        to.push(Asking::MODE);
        to.extend_from_slice(&(self.file.len() as u32).to_le_bytes());
        to.extend_from_slice(&(self.room as u64).to_le_bytes());
        to.extend_from_slice(&self.settings.to_le_bytes());
        to.extend_from_slice(&self.file);
    }

    fn reply(&self, driver: &mut Driver) -> Result<Reply, String> {
        Ok(Reply {
            answer: driver.receive()?,
            out: driver.receive_bytes(self.room)?,
            lines: driver.receive_altered(SALVAGE_LINES)?,
            checked: driver.receive()?,
            again: driver.receive()?,
        })
    }

    fn lacking(&self, proved: &Reply) -> Option<&'static str> {
        proved.answer.lacking("esa_salvage")
    }

    fn one_by_one(&self) -> Vec<Asking> {
        vec![self.clone()]
    }
}

impl fmt::Display for Asking {
    fn fmt(&self, to: &mut fmt::Formatter) -> fmt::Result {
        let (origin, settings, room) = (self.origin, self.settings, self.room);
        let file = hex(&self.file);
        write!(
            to,
            "{origin}: save, settings {settings:X}h, room {room}: {file}"
        )
    }
}

impl fmt::Display for Reply {
    fn fmt(&self, to: &mut fmt::Formatter) -> fmt::Result {
        let table = saved(self.answer).and_then(|length| self.out.get(..length));
        let (table, lines) = (hex(table.unwrap_or(&self.out)), text(&self.lines));
        let (answer, checked, again) = (self.answer, self.checked, self.again);
        write!(
            to,
            "{answer}, '{table}', lines '{lines}', checked {checked}, once more {again}"
        )
    }
}
