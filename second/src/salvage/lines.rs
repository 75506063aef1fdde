//! The lines of a salvage: one for each change, in the order made.

use std::fmt;

/// More than every text needs: elements are 3 bytes at least, so 1,360 lines come from the pass at most, two from each of the 96
/// kept and one from the description, of 17 bytes at most.
pub const SALVAGE_LINES: usize = 32_768;

/// What was done to an element, or to the description.
#[derive(Clone, Copy, Debug, PartialEq, Eq)]
pub enum Change {
    LeftOut,
    Cleared,
}

impl Change {
    pub fn words(self) -> &'static str {
        match self {
            Change::LeftOut => "left out",
            Change::Cleared => "cleared",
        }
    }
}

/// One change: where the element stood in the file, or 0 for the description, and the rule that it broke.
#[derive(Clone, Copy, Debug, PartialEq, Eq)]
pub struct Line {
    pub place: usize,
    pub number: u8,
    pub change: Change,
}

impl fmt::Display for Line {
    fn fmt(&self, to: &mut fmt::Formatter) -> fmt::Result {
        let words = self.change.words();
        writeln!(to, "{}\t{}\t{words}", self.place, self.number)
    }
}

/// The text of the lines so far, at the front of a lent buffer.
pub struct Text<'b> {
    buffer: &'b mut [u8; SALVAGE_LINES],
    pub length: usize,
}

impl<'b> Text<'b> {
    pub fn new(buffer: &'b mut [u8; SALVAGE_LINES]) -> Text<'b> {
        Text { buffer, length: 0 }
    }

    pub fn left_out(&mut self, place: usize, number: u8) {
        self.line(place, number, Change::LeftOut);
    }

    pub fn cleared(&mut self, place: usize, number: u8) {
        self.line(place, number, Change::Cleared);
    }

    fn line(&mut self, place: usize, number: u8, change: Change) {
        self.decimal(place as u16);
        self.bytes(b"\t");
        self.decimal(u16::from(number));
        self.bytes(b"\t");
        self.bytes(change.words().as_bytes());
        self.bytes(b"\n");
    }

    fn bytes(&mut self, bytes: &[u8]) {
        let end = self.length + bytes.len();
        self.buffer[self.length..end].copy_from_slice(bytes);
        self.length = end;
    }

    /// Four digits at most.
    fn decimal(&mut self, number: u16) {
        let digits = [1000, 100, 10, 1].map(|unit| b'0' + (number / unit % 10) as u8);
        let zeros = digits.iter().take(3).take_while(|&&digit| digit == b'0');
        self.bytes(&digits[zeros.count()..]);
    }
}
