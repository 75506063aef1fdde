//! An answer as the C face packs it: number + 256 x (place, count, identifier or length).

use second::Refusal;
use std::fmt;

#[derive(Clone, Copy, Debug, PartialEq, Eq)]
pub struct Answer(pub u64);

/// What the driver says of a call that its archive lacks; no call answers number 255.
const NO_SUCH_CALL: Answer = Answer(u64::MAX);

impl Answer {
    pub fn of(number: u8, beside: usize) -> Answer {
        Answer(u64::from(number) + 256 * beside as u64)
    }

    pub fn number(self) -> u8 {
        self.0 as u8
    }

    /// This name, when the answer says that the archive lacks the call.
    pub fn lacking(self, name: &'static str) -> Option<&'static str> {
        (self == NO_SUCH_CALL).then_some(name)
    }
}

/// The refusal, or 0 and what stands beside it.
impl From<Result<usize, Refusal>> for Answer {
    fn from(result: Result<usize, Refusal>) -> Answer {
        match result {
            Ok(beside) => Answer::of(0, beside),
            Err(Refusal { number, place }) => Answer::of(number, place),
        }
    }
}

impl fmt::Display for Answer {
    fn fmt(&self, to: &mut fmt::Formatter) -> fmt::Result {
        write!(to, "{} with {}", self.number(), self.0 >> 8)
    }
}
