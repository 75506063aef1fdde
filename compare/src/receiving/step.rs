//! One step of a conversation with a receiver, on bytes that all its steps share.

use crate::answer::Answer;
use second::{Receiver, Settings};
use std::fmt;

#[derive(Clone, Copy, Debug, PartialEq, Eq)]
pub enum Step {
    /// Begins anew over this byte in all places of the state, or over what stood there.
    Start(Option<u8>),
    /// The bytes from an offset on, so many.
    Piece {
        from: usize,
        length: usize,
    },
    /// All bytes from an offset on in pieces of so many, the last one fewer. The first answer that is not 0 counts.
    Reports {
        from: usize,
        size: usize,
    },
    /// So many bytes from the front, so many times. The first answer that is not 0 counts.
    Again {
        length: usize,
        times: usize,
    },
    End,
    /// A state of random bytes that no start gave, all bytes in pieces of so many, an end, and a second one, which
    /// alone is answered.
    Wild {
        seed: u32,
        size: usize,
    },
}

/// What every call answers after the end.
const AFTER_END: Answer = Answer(20);

impl Step {
    /// In a request: which, and two numbers of four bytes.
    pub const LENGTH: usize = 9;

    pub fn request(self, to: &mut Vec<u8>) {
        let (which, a, b) = match self {
            Step::Start(before) => (0, before.map_or(256, usize::from), 0),
            Step::Piece { from, length } => (1, from, length),
            Step::Reports { from, size } => (2, from, size),
            Step::Again { length, times } => (3, length, times),
            Step::End => (4, 0, 0),
            Step::Wild { seed, size } => (5, seed as usize, size),
        };
        to.push(which);
        to.extend_from_slice(&(a as u32).to_le_bytes());
        to.extend_from_slice(&(b as u32).to_le_bytes());
    }

    /// The step of a request.
    pub fn of(bytes: &[u8]) -> Option<Step> {
        let &[which, a, b, c, d, e, f, g, h] = bytes else {
            return None;
        };
        let [a, b] = [[a, b, c, d], [e, f, g, h]].map(|four| u32::from_le_bytes(four) as usize);
        Some(match which {
            0 => Step::Start(u8::try_from(a).ok()),
            1 => Step::Piece { from: a, length: b },
            2 => Step::Reports { from: a, size: b },
            3 => Step::Again {
                length: a,
                times: b,
            },
            4 => Step::End,
            5 => Step::Wild {
                seed: a as u32,
                size: b,
            },
            _ => return None,
        })
    }

    /// What the second program's receiver answers.
    pub fn second(self, receiver: &mut Receiver, bytes: &[u8], settings: u64) -> Answer {
        let taken = |answer: Result<(), _>| Answer::from(answer.map(|()| 0));
        match self {
            Step::Start(_) => {
                *receiver = Receiver::start(Settings::of_number(settings));
                Answer::of(0, 0)
            }
            Step::Piece { from, length } => taken(receiver.piece(&bytes[from..from + length])),
            Step::Reports { from, size } => {
                let mut pieces = bytes[from..].chunks(size);
                taken(pieces.try_for_each(|piece| receiver.piece(piece)))
            }
            Step::Again { length, times } => {
                taken((0..times).try_for_each(|_| receiver.piece(&bytes[..length])))
            }
            Step::End => receiver.end().into(),
            Step::Wild { .. } => AFTER_END,
        }
    }
}

impl fmt::Display for Step {
    fn fmt(&self, to: &mut fmt::Formatter) -> fmt::Result {
        match self {
            Step::Start(_) => to.write_str("start"),
            Step::Piece { from, length } => write!(to, "{length} bytes from {from}"),
            Step::Reports { from, size } => write!(to, "reports of {size} from {from}"),
            Step::Again { length, times } => write!(to, "{times} times the first {length} bytes"),
            Step::End => to.write_str("end"),
            Step::Wild { seed, size } => {
                write!(to, "state of seed {seed}, reports of {size}, end twice")
            }
        }
    }
}
