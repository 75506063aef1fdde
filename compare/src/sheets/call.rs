//! One call on a sheet: how it is asked for, and what the second program answers and leaves.

use crate::answer::Answer;
use crate::outcome::Outcome;
use crate::settings::of_writing;
use second::sheet::SHEET_TEXT;
use second::Sheet;
use std::fmt;

#[derive(Clone, Copy, Debug, PartialEq, Eq)]
pub enum Does {
    /// The sheet of the table, made afresh.
    Afresh,
    /// The lent sheet, brought forward to the table.
    Forward,
    /// The text of the lent sheet; no table is looked at.
    Text,
}

#[derive(Clone, Copy, Debug)]
pub struct SheetCall {
    pub does: Does,
    /// As lent, before the call.
    pub sheet: Sheet,
}

/// Two bytes a number, lowest first.
fn bytes_of(sheet: &Sheet) -> Vec<u8> {
    sheet
        .iter()
        .flat_map(|number| number.to_le_bytes())
        .collect()
}

pub fn sheet_of(bytes: &[u8]) -> Sheet {
    std::array::from_fn(|at| u16::from_le_bytes([bytes[2 * at], bytes[2 * at + 1]]))
}

impl SheetCall {
    /// Which, and the 25 numbers.
    pub const LENGTH: usize = 51;

    /// The call of a request; of another first byte none.
    pub fn of(asked: &[u8]) -> Option<SheetCall> {
        let does = match asked[0] {
            0 => Does::Afresh,
            1 => Does::Forward,
            2 => Does::Text,
            _ => return None,
        };
        let sheet = sheet_of(&asked[1..]);
        Some(SheetCall { does, sheet })
    }

    pub fn request(&self, to: &mut Vec<u8>) {
        to.push(self.does as u8);
        to.extend(bytes_of(&self.sheet));
    }

    pub fn name(&self) -> &'static str {
        match self.does {
            Does::Afresh => "esa_sheet",
            Does::Forward => "esa_sheet_forward",
            Does::Text => "esa_sheet_text",
        }
    }

    /// So many bytes come back: the sheet, or the text's whole buffer.
    pub fn left(&self) -> usize {
        match self.does {
            Does::Text => SHEET_TEXT,
            _ => SheetCall::LENGTH - 1,
        }
    }

    /// What the second program answers, and the bytes as it leaves them.
    pub fn second(&self, table: &[u8], settings: u64) -> Outcome {
        let chip = of_writing(settings);
        let mut sheet = self.sheet;
        let answer = match self.does {
            Does::Afresh => second::sheet(table, chip, &mut sheet),
            Does::Forward => second::forward(table, chip, &mut sheet),
            Does::Text => return in_its_buffer(second::sheet_text(&sheet, chip).as_bytes()),
        };
        Outcome {
            answer: answer.into(),
            buffer: bytes_of(&sheet),
        }
    }
}

/// The text at the front of the driver's buffer, which held a pattern.
fn in_its_buffer(text: &[u8]) -> Outcome {
    let mut buffer: Vec<u8> = (0..SHEET_TEXT).map(|at| 0x80 + (at % 127) as u8).collect();
    buffer[..text.len()].copy_from_slice(text);
    Outcome {
        answer: Answer::of(0, text.len()),
        buffer,
    }
}

impl fmt::Display for SheetCall {
    fn fmt(&self, to: &mut fmt::Formatter) -> fmt::Result {
        let does = match self.does {
            Does::Afresh => "a sheet made afresh over",
            Does::Forward => "a sheet brought forward from",
            Does::Text => "the text of the sheet",
        };
        write!(to, "{does} {:?}", self.sheet)
    }
}
