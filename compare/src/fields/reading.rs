//! The calls that read a table out, and those that read a part: what the second program answers to each.

use crate::answer::Answer;
use crate::call::index;
use second::answer::number;
use second::blocks::{colour_block, register_block, speed_block, Pairs, RegisterPair};
use second::numbers::Numbers;
use second::{Lent, Refusal, Settings};
use std::fmt;
use std::ops::Range;

#[derive(Clone, Copy, Debug, PartialEq, Eq)]
pub enum Reading {
    /// Of a table: the description's numbers; of element k its numbers, its part, its text.
    Describe,
    Fields(u64),
    Part(u64),
    Text(u64),
    /// Of a part of 09h: speed block j, and pair i of it.
    Block(u64),
    Pair(u64, u64),
    /// Of a part of 0Ah: block w, and pair i of it.
    Entries(u64),
    Entry(u64, u64),
    /// Of a part of 0Dh: block w, and pair i of it.
    Colours(u64),
    Colour(u64, u64),
    /// Of a table: the label of element k, with a lent name of so many bytes.
    Label(u64, u64),
}

/// What the numbers hold before a call; the driver has the same.
pub fn pattern() -> Numbers {
    std::array::from_fn(|at| 0x80 + at as u8)
}

impl Reading {
    pub const NAMES: [&'static str; 11] = [
        "esa_describe",
        "esa_fields",
        "esa_part",
        "esa_text",
        "esa_block",
        "esa_pair",
        "esa_entries",
        "esa_entry",
        "esa_colours",
        "esa_colour",
        "esa_label",
    ];
    /// Bytes of a reading in a request.
    pub const LENGTH: usize = 17;

    /// The reading that a request asks for.
    pub fn of(which: u8, first: u64, second: u64) -> Option<Reading> {
        Some(match which {
            0 => Reading::Describe,
            1 => Reading::Fields(first),
            2 => Reading::Part(first),
            3 => Reading::Text(first),
            4 => Reading::Block(first),
            5 => Reading::Pair(first, second),
            6 => Reading::Entries(first),
            7 => Reading::Entry(first, second),
            8 => Reading::Colours(first),
            9 => Reading::Colour(first, second),
            10 => Reading::Label(first, second),
            _ => return None,
        })
    }

    /// The driver's number of the call, and its place among the names.
    pub fn which(self) -> u8 {
        match self {
            Reading::Describe => 0,
            Reading::Fields(_) => 1,
            Reading::Part(_) => 2,
            Reading::Text(_) => 3,
            Reading::Block(_) => 4,
            Reading::Pair(..) => 5,
            Reading::Entries(_) => 6,
            Reading::Entry(..) => 7,
            Reading::Colours(_) => 8,
            Reading::Colour(..) => 9,
            Reading::Label(..) => 10,
        }
    }

    pub fn name(self) -> &'static str {
        Reading::NAMES[usize::from(self.which())]
    }

    /// Which call, and its two arguments; 0 for one that it has not.
    pub fn request(self, to: &mut Vec<u8>) {
        let (first, second) = match self {
            Reading::Describe => (0, 0),
            Reading::Fields(k) | Reading::Part(k) | Reading::Text(k) => (k, 0),
            Reading::Block(one) | Reading::Entries(one) | Reading::Colours(one) => (one, 0),
            Reading::Pair(one, other) | Reading::Entry(one, other) => (one, other),
            Reading::Colour(one, other) | Reading::Label(one, other) => (one, other),
        };
        to.push(self.which());
        to.extend_from_slice(&first.to_le_bytes());
        to.extend_from_slice(&second.to_le_bytes());
    }

    /// The length of a reply: the answer, and the numbers where the call has them.
    pub fn reply_length(self) -> usize {
        match self {
            Reading::Describe | Reading::Fields(_) => 8 + size_of::<Numbers>(),
            _ => 8,
        }
    }

    /// Adds what the second program replies on these bytes.
    pub fn second(self, bytes: &[u8], settings: u64, to: &mut Vec<u8>) {
        let mut numbers = pattern();
        let answer = self.answer(bytes, Settings::of_number(settings), &mut numbers);
        to.extend_from_slice(&answer.0.to_le_bytes());
        if self.reply_length() > 8 {
            to.extend_from_slice(&numbers);
        }
    }

    fn answer(self, bytes: &[u8], settings: Settings, numbers: &mut Numbers) -> Answer {
        Answer::from(match self {
            Reading::Describe => second::describe(bytes, settings, numbers).map(|()| 0),
            Reading::Fields(k) => {
                second::fields(bytes, index(k), settings, numbers).map(usize::from)
            }
            Reading::Part(k) => second::part_place(bytes, index(k), settings).map(packed),
            Reading::Text(k) => {
                second::text_place(bytes, index(k), settings).map(|text| text.map_or(0, packed))
            }
            Reading::Block(j) => {
                let block = speed_block(bytes, index(j));
                whole(block.map(|b| usize::from(b.speed.0) + 256 * usize::from(b.pairs.entries())))
            }
            Reading::Pair(j, i) => {
                let block = speed_block(bytes, index(j));
                whole(block.and_then(|b| b.pairs.get(index(i))).map(both))
            }
            Reading::Entries(w) => entries(register_block(bytes, index(w))),
            Reading::Entry(w, i) => entry(register_block(bytes, index(w)), i),
            Reading::Colours(w) => entries(colour_block(bytes, index(w))),
            Reading::Colour(w, i) => entry(colour_block(bytes, index(w)), i),
            Reading::Label(k, length) => {
                second::label_place(bytes, index(k), settings, index(length)).map(lent)
            }
        })
    }
}

/// The number of pairs of a block of 0Ah or 0Dh.
fn entries(block: Option<Pairs>) -> Result<usize, Refusal> {
    whole(block.map(|pairs| usize::from(pairs.entries())))
}

/// One of its pairs.
fn entry(block: Option<Pairs>, i: u64) -> Result<usize, Refusal> {
    whole(block.and_then(|pairs| pairs.get(index(i))).map(both))
}

/// Place + 65,536 x length.
fn packed(range: Range<usize>) -> usize {
    range.start + 65_536 * range.len()
}

/// Which slice, in 8 bits; the place there in 24, and the length in 24.
fn lent((lent, range): (Lent, Range<usize>)) -> usize {
    let which = match lent {
        Lent::Table => 0,
        Lent::Name => 1,
    };
    which + (range.start << 8) + (range.len() << 32)
}

/// Address + 65,536 x data.
fn both(pair: RegisterPair) -> usize {
    usize::from(pair.address) + 65_536 * usize::from(pair.data)
}

/// 17 at 0 for what does not stand whole.
fn whole(found: Option<usize>) -> Result<usize, Refusal> {
    found.ok_or(Refusal::at(number::PAST_LAST, 0))
}

impl fmt::Display for Reading {
    fn fmt(&self, to: &mut fmt::Formatter) -> fmt::Result {
        match self {
            Reading::Describe => to.write_str("the description's numbers"),
            Reading::Fields(k) => write!(to, "numbers of element {k}"),
            Reading::Part(k) => write!(to, "part of element {k}"),
            Reading::Text(k) => write!(to, "text of element {k}"),
            Reading::Block(j) => write!(to, "speed block {j} of the part"),
            Reading::Pair(j, i) => write!(to, "pair {i} of speed block {j} of the part"),
            Reading::Entries(w) => write!(to, "register block {w} of the part"),
            Reading::Entry(w, i) => write!(to, "pair {i} of register block {w} of the part"),
            Reading::Colours(w) => write!(to, "colour {w} of the part"),
            Reading::Colour(w, i) => write!(to, "pair {i} of colour {w} of the part"),
            Reading::Label(k, length) => {
                write!(to, "label of element {k}, a name of {length} bytes lent")
            }
        }
    }
}
