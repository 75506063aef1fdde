//! The element that a cut falls into, as far as its bytes have come: its fixed fields, and of its part the numbers
//! that its rules need.

use crate::answer::number;
use crate::element::{id, word, HEADER_LENGTH};
use crate::reader::kinds;
use crate::reader::seen::{Claims, Numbers};
use crate::reader::sets::Chosen;

/// The longest element without a part, a zone descriptor.
const MOST_KEPT: usize = 30;

#[derive(Clone, Debug, PartialEq, Eq)]
pub struct Cut {
    /// Bytes so far, the header included; 0 where no element is cut.
    seen: usize,
    /// As its header says.
    length: usize,
    /// So many of its first bytes are kept.
    keeps: usize,
    kept: [u8; MOST_KEPT],
    blocks: Blocks,
    units: Units,
}

impl Cut {
    pub fn none() -> Cut {
        Cut {
            seen: 0,
            length: 0,
            keeps: 0,
            kept: [0; MOST_KEPT],
            blocks: Blocks::new(0, 0),
            units: Units::new(),
        }
    }

    #[inline(always)]
    pub fn is_none(&self) -> bool {
        self.seen == 0
    }

    #[inline(always)]
    pub fn length(&self) -> usize {
        self.length
    }

    /// Identifier and fixed fields.
    #[inline(always)]
    pub fn front(&self) -> (u8, &[u8]) {
        (self.kept[0], &self.kept)
    }

    /// Takes bytes of the header; gives those behind it once it is whole.
    pub fn take_header<'p>(&mut self, piece: &'p [u8]) -> Option<&'p [u8]> {
        let room = &mut self.kept[self.seen..HEADER_LENGTH];
        let more = piece.len().min(room.len());
        room[..more].copy_from_slice(&piece[..more]);
        self.seen += more;
        self.length = usize::from(word(&self.kept, 1));
        (self.seen == HEADER_LENGTH).then_some(&piece[more..])
    }

    #[inline(always)]
    pub fn has_header(&self) -> bool {
        self.seen >= HEADER_LENGTH
    }

    /// Behind the whole header: what will be kept. 7 and 8 of an element without a part that is longer than any.
    pub fn open(&mut self) -> u8 {
        let (keeps, gap, most) = match self.kept[0] {
            id::CONTROLLER => (11, 2, 6),
            id::TACHOMETER => (12, 1, 2),
            id::EXTERNAL_RGB => (12, 1, 3),
            id::TEXT => (TEXT, 0, 0),
            _ if self.length <= MOST_KEPT => (self.length, 0, 0),
            identifier if id::ALL.contains(&identifier) => return number::LAYOUT,
            _ => return number::IDENTIFIER,
        };
        self.keeps = keeps;
        self.blocks = Blocks::new(gap, most);
        0
    }

    /// Takes bytes behind the header; gives those behind the element once it is whole.
    #[inline(always)]
    pub fn take<'p>(&mut self, piece: &'p [u8]) -> Option<&'p [u8]> {
        let from = self.seen;
        let (bytes, rest) = piece.split_at(piece.len().min(self.length - from));
        if from < self.keeps {
            let room = &mut self.kept[from..self.keeps];
            let more = bytes.len().min(room.len());
            room[..more].copy_from_slice(&bytes[..more]);
        }
        self.blocks.take(bytes, from);
        if self.kept[0] == id::TEXT {
            self.units.take(bytes, from);
        }
        self.seen += bytes.len();
        (self.seen == self.length).then_some(rest)
    }

    /// 7 to 12 and 23 of the whole element, as `kinds::take` has them.
    #[inline(always)]
    pub fn judge(&self, chosen: Chosen, numbers: &mut Numbers, claims: &mut Claims) -> u8 {
        let (e, length) = (&self.kept, self.length);
        match e[0] {
            id::CONTROLLER if !self.blocks.fill(length + 1, 1) => number::LAYOUT,
            id::CONTROLLER if self.blocks.empty => number::CODE,
            id::TACHOMETER if !self.blocks.fill(length, 2) => number::LAYOUT,
            id::CONTROLLER | id::TACHOMETER => kinds::attachment(e[8], e[9], chosen, claims),
            id::EXTERNAL_RGB if !self.blocks.fill(length, 3) => number::LAYOUT,
            id::EXTERNAL_RGB => kinds::light_chip(e[11], e[8], e[9], chosen, claims),
            id::TEXT if length < TEXT => number::LAYOUT,
            id::TEXT => kinds::numbered(e[3], self.units.well_formed(length), numbers),
            identifier => kinds::take(identifier, &e[..length], e, chosen, numbers, claims),
        }
    }
}

/// The blocks of 09h, 0Ah and 0Dh, of which only the ENTRIES bytes are looked at.
#[derive(Clone, Debug, PartialEq, Eq)]
struct Blocks {
    /// Where in the element the next ENTRIES byte stands, or would.
    next: usize,
    /// Of each block so many bytes are no pairs.
    gap: usize,
    count: u8,
    /// So many are counted; where there are more they do not fill the element.
    most: u8,
    /// There was an ENTRIES of 0.
    empty: bool,
}

impl Blocks {
    /// In all three kinds the first ENTRIES stands in byte 12: behind a SPEED in 11, or the first of the part.
    fn new(gap: usize, most: u8) -> Blocks {
        Blocks {
            next: 12,
            gap,
            count: 0,
            most,
            empty: false,
        }
    }

    /// The bytes from this offset on.
    #[inline(always)]
    fn take(&mut self, bytes: &[u8], from: usize) {
        while self.count < self.most {
            let Some(&entries) = bytes.get(self.next - from) else {
                return;
            };
            self.empty |= entries == 0;
            self.count += 1;
            self.next += self.gap + 4 * usize::from(entries);
        }
    }

    /// At least so many blocks, and one more ENTRIES byte would stand there.
    #[inline(always)]
    fn fill(&self, end: usize, least: u8) -> bool {
        self.count >= least && self.next == end
    }
}

/// Where a string's text starts.
const TEXT: usize = 6;

/// A text as far as it has come. It starts at an even offset, so the high byte of each unit stands at an odd one, and
/// tells alone whether the unit is a surrogate.
#[derive(Clone, Debug, PartialEq, Eq)]
struct Units {
    /// The last whole unit is a high surrogate.
    high: bool,
    bad: bool,
}

impl Units {
    fn new() -> Units {
        Units {
            high: false,
            bad: false,
        }
    }

    #[inline(always)]
    fn take(&mut self, bytes: &[u8], from: usize) {
        let first = from.max(TEXT) | 1;
        let Some(rest) = bytes.get(first - from..) else {
            return;
        };
        let (mut high, mut bad) = (self.high, self.bad);
        for byte in rest.iter().step_by(2) {
            // The six bits that tell surrogates: 110110 is high, 110111 is low.
            let top = byte >> 2;
            bad |= high != (top == 0x37);
            high = top == 0x36;
        }
        (self.high, self.bad) = (high, bad);
    }

    /// Of a string of this length that has come whole.
    #[inline(always)]
    fn well_formed(&self, length: usize) -> bool {
        !(self.bad | self.high) & length.is_multiple_of(2)
    }
}
