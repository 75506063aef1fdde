//! One step of a run of a trace through a table; all steps share the table and the trace.

use crate::answer::Answer;
use crate::outcome::Outcome;
use crate::settings::of_writing;
use second::trace::{Trace, PIECE, TEXT};
use std::fmt;

#[derive(Clone, Copy, Debug, PartialEq, Eq)]
pub enum Step {
    /// Begins anew over this byte in all places of the state, or over what stood there.
    Start(Option<u8>),
    /// The bytes from an offset on, so many, of which 2,048 are taken at most.
    Piece {
        from: usize,
        length: usize,
    },
    /// All bytes from an offset on in pieces of so many, of which each begins where the one before was taken to. The texts follow
    /// each other.
    Reports {
        from: usize,
        size: usize,
    },
    /// So many bytes from the front, so many times. The last text counts.
    Again {
        length: usize,
        times: usize,
    },
    End,
    /// A state of random bytes that no start gave, all bytes in pieces of so many, and an end. No text is told.
    Wild {
        seed: u32,
        size: usize,
    },
}

/// The second program's side of a run.
pub struct Running {
    trace: Option<Trace>,
    out: Box<[u8; TEXT]>,
}

impl Running {
    pub fn new() -> Running {
        Running {
            trace: None,
            out: Box::new([0; TEXT]),
        }
    }

    fn piece(&mut self, piece: &[u8], text: &mut Vec<u8>) {
        if let Some(trace) = &mut self.trace {
            let length = trace.piece(piece, &mut self.out);
            text.extend_from_slice(&self.out[..length]);
        }
    }

    fn end(&mut self, text: &mut Vec<u8>) {
        if let Some(trace) = &self.trace {
            let length = trace.end(&mut self.out);
            text.extend_from_slice(&self.out[..length]);
        }
    }
}

impl Step {
    /// In a request: which, and two numbers of four bytes.
    pub const LENGTH: usize = 9;

    pub fn request(self, to: &mut Vec<u8>) {
        let (which, a, b) = match self {
            Step::Start(before) => (0, before.map_or(256, usize::from), 0),
            Step::Piece { from, length } => (1, from, length),
            Step::Reports { from, size } => (2, from, size),
            Step::Again { length, times } => (3, length, times),
            Step::End => (4, 0, 0),
            Step::Wild { seed, size } => (5, seed as usize, size),
        };
        to.push(which);
        to.extend_from_slice(&(a as u32).to_le_bytes());
        to.extend_from_slice(&(b as u32).to_le_bytes());
    }

    /// The step of a request.
    pub fn of(bytes: &[u8]) -> Option<Step> {
        let &[which, a, b, c, d, e, f, g, h] = bytes else {
            return None;
        };
        let [a, b] = [[a, b, c, d], [e, f, g, h]].map(|four| u32::from_le_bytes(four) as usize);
        Some(match which {
            0 => Step::Start(u8::try_from(a).ok()),
            1 => Step::Piece { from: a, length: b },
            2 => Step::Reports { from: a, size: b },
            3 => Step::Again {
                length: a,
                times: b,
            },
            4 => Step::End,
            5 => Step::Wild {
                seed: a as u32,
                size: b,
            },
            _ => return None,
        })
    }

    /// What the second program answers, and its text.
    pub fn second(
        self,
        running: &mut Running,
        table: &[u8],
        bytes: &[u8],
        settings: u64,
    ) -> Outcome {
        let mut text = Vec::new();
        match self {
            Step::Start(_) => {
                let started = Trace::start(table, of_writing(settings));
                let answer = started.as_ref().map(Trace::elements);
                let answer = Answer::from(answer.map_err(|&refusal| refusal));
                running.trace = started.ok();
                return answer.into();
            }
            Step::Piece { from, length } => {
                running.piece(&bytes[from..from + length], &mut text);
            }
            Step::Reports { from, size } => {
                let pieces = bytes[from..].chunks(size.min(PIECE));
                pieces.for_each(|piece| running.piece(piece, &mut text));
            }
            Step::Again { length, times } => {
                for _ in 0..times {
                    text.clear();
                    running.piece(&bytes[..length], &mut text);
                }
            }
            Step::End => running.end(&mut text),
            Step::Wild { .. } => running.trace = None,
        }
        Outcome {
            answer: Answer::of(0, text.len()),
            buffer: text,
        }
    }
}

impl fmt::Display for Step {
    fn fmt(&self, to: &mut fmt::Formatter) -> fmt::Result {
        match self {
            Step::Start(_) => to.write_str("start"),
            Step::Piece { from, length } => write!(to, "{length} bytes from {from}"),
            Step::Reports { from, size } => write!(to, "pieces of {size} from {from}"),
            Step::Again { length, times } => write!(to, "{times} times the first {length} bytes"),
            Step::End => to.write_str("end"),
            Step::Wild { seed, size } => {
                write!(to, "state of seed {seed}, pieces of {size}, end")
            }
        }
    }
}
