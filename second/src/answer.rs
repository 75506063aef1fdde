//! The answers: document 01, 'What comes back'.

/// The numbers of the refusals.
pub mod number {
    use crate::settings::Rules;

    pub const SHORT: u8 = 1;
    pub const REVISION: u8 = 2;
    pub const LENGTH: u8 = 3;
    pub const DEVICE_TYPE: u8 = 4;
    pub const POWER: u8 = 5;
    pub const HEADER: u8 = 6;
    pub const IDENTIFIER: u8 = 7;
    pub const LAYOUT: u8 = 8;
    pub const CODE: u8 = 9;
    pub const PIN: u8 = 10;
    pub const TOO_MANY: u8 = 11;
    pub const TWICE: u8 = 12;
    pub const NO_ZONE: u8 = 13;
    pub const NO_STRING: u8 = 14;
    pub const CLASH: u8 = 15;
    pub const NO_ROOM: u8 = 16;
    pub const PAST_LAST: u8 = 17;
    pub const NO_CONVERSION: u8 = 18;
    pub const LINE: u8 = 19;
    pub const AFTER_END: u8 = 20;
    pub const HEX: u8 = 21;
    pub const STILL_NAMED: u8 = 22;
    pub const RETIRED: u8 = 23;
    pub const NO_DESCRIPTION: u8 = 24;
    pub const TOO_LARGE: u8 = 25;

    /// Every answer that a reader has to a whole table.
    pub fn of_a_table(rules: Rules) -> Vec<u8> {
        let retired = (rules == Rules::Ordinary).then_some(RETIRED);
        (0..=CLASH).chain(retired).collect()
    }
}

/// A table is 16 to 4,096 bytes.
pub const LARGEST_TABLE: usize = 4096;
/// The description's length, and the offset of the first element.
pub const DESCRIPTION_LENGTH: usize = 16;
/// A 97th element is refused.
pub const MOST_ELEMENTS: usize = 96;
/// A 13th zone is refused.
pub const MOST_ZONES: usize = 12;

/// The reader's answer to a whole table.
#[derive(Clone, Copy, Debug, PartialEq, Eq)]
pub enum Verdict {
    /// Number 0, with the number of elements.
    Accepted(usize),
    Refused {
        number: u8,
        place: usize,
    },
}

impl Verdict {
    /// The paper's number, 0 for an acceptance.
    pub fn number(self) -> u8 {
        match self {
            Verdict::Accepted(_) => 0,
            Verdict::Refused { number, .. } => number,
        }
    }

    /// What stands beside the number: the count of elements beside 0, else the place.
    pub fn beside(self) -> usize {
        match self {
            Verdict::Accepted(count) => count,
            Verdict::Refused { place, .. } => place,
        }
    }

    /// The count, or the refusal to hand on.
    pub fn into_result(self) -> Result<usize, Refusal> {
        match self {
            Verdict::Accepted(count) => Ok(count),
            Verdict::Refused { number, place } => Err(Refusal { number, place }),
        }
    }
}

/// A refusal of any call: number and place.
#[derive(Clone, Copy, Debug, PartialEq, Eq)]
pub struct Refusal {
    pub number: u8,
    pub place: usize,
}

impl Refusal {
    pub const fn at(number: u8, place: usize) -> Refusal {
        Refusal { number, place }
    }
}
