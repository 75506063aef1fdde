//! What a call leaves behind, and where two sides differ in it.

use crate::answer::Answer;

/// The answer, and the bytes that the call was to write: of the writer the whole buffer, of a
/// listing the front of it as far as it is altered, of the other calls none.
#[derive(Clone, Debug, PartialEq, Eq)]
pub struct Outcome {
    pub answer: Answer,
    pub buffer: Vec<u8>,
}

impl From<Answer> for Outcome {
    fn from(answer: Answer) -> Outcome {
        Outcome {
            answer,
            buffer: Vec::new(),
        }
    }
}

pub fn hex(bytes: &[u8]) -> String {
    bytes.iter().map(|byte| format!("{byte:02X}")).collect()
}

/// Text as it stands, tabs and other bytes by their names.
pub fn text(bytes: &[u8]) -> String {
    bytes.escape_ascii().to_string()
}

impl Outcome {
    /// How the proved side's outcome differs from the one expected; the bytes are shown from the
    /// first that is another.
    pub fn against(&self, expected: &Outcome, shown: fn(&[u8]) -> String) -> String {
        let (proved, wanted) = (&self.buffer, &expected.buffer);
        let same = proved.iter().zip(wanted).take_while(|(a, b)| a == b);
        let at = same.count();
        let bytes = if proved == wanted {
            "the same bytes".to_string()
        } else {
            let [proved, wanted] = [proved, wanted].map(|bytes| shown(&bytes[at..]));
            format!("from byte {at} on '{proved}', not '{wanted}'")
        };
        let (proved, wanted) = (self.answer, expected.answer);
        format!("the proved side answers {proved}, where {wanted} is expected; {bytes}")
    }
}

/// Differences: all are counted, the first few are shown.
#[derive(Default)]
pub struct Differences(pub u64);

impl Differences {
    const SHOWN: u64 = 5;

    pub fn note(&mut self, what: impl FnOnce() -> String) {
        self.0 += 1;
        if self.0 <= Differences::SHOWN {
            println!("DIFFERENCE: {}", what());
        }
    }

    /// That count from here on and show none.
    #[cfg(test)]
    pub fn unshown() -> Differences {
        Differences(Differences::SHOWN)
    }
}
