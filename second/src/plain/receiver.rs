//! The receiver once more: it keeps every byte and asks the plain reader at the end.

use super::elements;
use crate::answer::{number, Refusal};
use crate::settings::Settings;

#[derive(Clone, Debug, PartialEq, Eq)]
pub struct Receiver {
    settings: Settings,
    bytes: Vec<u8>,
    ended: bool,
}

impl Receiver {
    pub fn start(settings: Settings) -> Receiver {
        Receiver {
            settings,
            bytes: Vec::new(),
            ended: false,
        }
    }

    pub fn piece(&mut self, piece: &[u8]) -> Result<(), Refusal> {
        self.not_ended()?;
        self.bytes.extend_from_slice(piece);
        Ok(())
    }

    pub fn end(&mut self) -> Result<usize, Refusal> {
        self.not_ended()?;
        self.ended = true;
        elements(&self.bytes, self.settings).map(|found| found.len())
    }

    fn not_ended(&self) -> Result<(), Refusal> {
        match self.ended {
            true => Err(Refusal::at(number::AFTER_END, 0)),
            false => Ok(()),
        }
    }
}
