//! The pass from offset 16, as far as the bytes have come.

use super::cut::Cut;
use super::firsts::Firsts;
use crate::answer::{number, Refusal, DESCRIPTION_LENGTH, MOST_ELEMENTS};
use crate::element::HEADER_LENGTH;
use crate::reader::kinds;
use crate::reader::seen::{Claims, Numbers};
use crate::reader::sets::Chosen;

/// No place of a table.
const NOWHERE: usize = usize::MAX;

/// The small rest of the state, which lives in registers while a piece is gone through.
#[derive(Clone, Copy, Debug, PartialEq, Eq)]
struct Way {
    /// Where the element under way starts, or the next one; or what was refused. 0 is the description.
    place: usize,
    /// The bytes from there to the end by the told length; none after a refusal.
    left: usize,
    elements: usize,
    claims: Claims,
    /// Where a claim first clashed.
    clash: usize,
    /// The first rule that is broken, at `place`; or 0.
    refusal: u8,
}

impl Way {
    /// 6 and the 97th, of an element that says this length.
    #[inline(always)]
    fn header(&self, length: usize) -> u8 {
        if !(HEADER_LENGTH..=self.left).contains(&length) {
            number::HEADER
        } else if self.elements == MOST_ELEMENTS {
            number::TOO_MANY
        } else {
            0
        }
    }

    #[inline(always)]
    fn refuse(&mut self, refusal: u8) {
        self.refusal = refusal;
        self.left = 0;
    }

    /// Past an element of this length. Whether any claim clashes does not depend on their order, so the first clash is
    /// of the element after which there is one.
    #[inline(always)]
    fn past(&mut self, length: usize) {
        self.note_clash();
        self.elements += 1;
        self.place += length;
        self.left -= length;
    }

    #[inline(always)]
    fn note_clash(&mut self) {
        let here = if self.claims.clash() {
            self.place
        } else {
            NOWHERE
        };
        self.clash = self.clash.min(here);
    }
}

#[derive(Clone, Debug, PartialEq, Eq)]
pub struct Pass {
    way: Way,
    cut: Cut,
    numbers: Numbers,
    firsts: Firsts,
}

impl Pass {
    /// Until the description is whole nothing is left to be read.
    pub fn new() -> Pass {
        Pass {
            way: Way {
                place: 0,
                left: 0,
                elements: 0,
                claims: Claims::new(),
                clash: NOWHERE,
                refusal: 0,
            },
            cut: Cut::none(),
            numbers: Numbers::new(),
            firsts: Firsts::new(),
        }
    }

    pub fn refuse(&mut self, refusal: u8) {
        self.way.refuse(refusal);
    }

    /// Behind a good description with this length, string index and claims.
    pub fn open(&mut self, said: usize, string: u8, claims: Claims) {
        self.way.claims = claims;
        self.way.note_clash();
        self.way.place = DESCRIPTION_LENGTH;
        self.way.left = said - DESCRIPTION_LENGTH;
        self.numbers.strings_named.add(string);
        self.firsts.described(string);
    }

    /// Bytes behind the description. Those behind the told length, or behind a refusal, nobody looks at.
    #[inline(always)]
    pub fn piece(&mut self, piece: &[u8], chosen: Chosen) {
        let mut rest = piece;
        if !self.cut.is_none() {
            rest = self.go_on(rest, chosen);
        }
        if !rest.is_empty() && self.way.left != 0 {
            self.elements(rest, chosen);
        }
    }

    /// Bytes from the start of an element on.
    #[inline(never)]
    fn elements(&mut self, piece: &[u8], chosen: Chosen) {
        let piece = &piece[..piece.len().min(self.way.left)];
        let rest = self.whole(piece, chosen);
        if self.way.refusal != 0 || rest.is_empty() {
            return;
        }
        // Fewer bytes to come than a header has are 6 at sight.
        if self.way.left < HEADER_LENGTH {
            self.way.refuse(number::HEADER);
            return;
        }
        self.go_on(rest, chosen);
    }

    /// Takes the elements that stand whole at the front; gives the front of one that is cut, if there is any.
    #[inline(always)]
    fn whole<'p>(&mut self, piece: &'p [u8], chosen: Chosen) -> &'p [u8] {
        let mut way = self.way;
        let mut rest = piece;
        while let Some(&[identifier, low, high]) = rest.first_chunk() {
            let length = usize::from(u16::from_le_bytes([low, high]));
            let mut refusal = way.header(length);
            if refusal == 0 {
                let Some(element) = rest.get(..length) else {
                    break;
                };
                self.numbers.note(identifier, rest);
                self.firsts.note(identifier, rest, way.place);
                let (numbers, claims) = (&mut self.numbers, &mut way.claims);
                refusal = kinds::take(identifier, element, rest, chosen, numbers, claims);
            }
            if refusal != 0 {
                way.refuse(refusal);
                break;
            }
            way.past(length);
            rest = &rest[length..];
        }
        self.way = way;
        rest
    }

    /// More bytes of the element that is cut; gives those behind it.
    #[inline(always)]
    fn go_on<'p>(&mut self, piece: &'p [u8], chosen: Chosen) -> &'p [u8] {
        let mut rest = piece;
        if !self.cut.has_header() {
            match self.headed(piece) {
                Some(behind) => rest = behind,
                None => return &[],
            }
        }
        match self.cut.take(rest) {
            Some(behind) => {
                self.completed(chosen);
                behind
            }
            None => &[],
        }
    }

    /// More bytes of the header of the element that is cut; gives those behind it, if it is whole and breaks no rule.
    fn headed<'p>(&mut self, piece: &'p [u8]) -> Option<&'p [u8]> {
        let rest = self.cut.take_header(piece)?;
        let refusal = match self.way.header(self.cut.length()) {
            0 => self.cut.open(),
            refusal => refusal,
        };
        if refusal != 0 {
            self.way.refuse(refusal);
            self.cut = Cut::none();
            return None;
        }
        Some(rest)
    }

    /// The element that was cut is whole.
    fn completed(&mut self, chosen: Chosen) {
        let (identifier, front) = self.cut.front();
        self.numbers.note(identifier, front);
        self.firsts.note(identifier, front, self.way.place);
        let (numbers, claims) = (&mut self.numbers, &mut self.way.claims);
        match self.cut.judge(chosen, numbers, claims) {
            0 => self.way.past(self.cut.length()),
            refusal => self.way.refuse(refusal),
        }
        self.cut = Cut::none();
    }

    /// What stood first in the way; or 13, 14, 15 over all; or the number of elements. All bytes have come.
    pub fn conclude(&self) -> Result<usize, Refusal> {
        let Way {
            place,
            elements,
            clash,
            refusal,
            ..
        } = self.way;
        // Index 0 names no string.
        let mut strings = self.numbers.strings;
        strings.add(0);
        let (number, place) = if refusal != 0 {
            (refusal, place)
        } else if self.numbers.zones_named.exceeds(&self.numbers.zones) {
            (number::NO_ZONE, self.firsts.zone(&self.numbers.zones))
        } else if self.numbers.strings_named.exceeds(&strings) {
            (number::NO_STRING, self.firsts.string(&strings))
        } else if clash != NOWHERE {
            (number::CLASH, clash)
        } else {
            return Ok(elements);
        };
        Err(Refusal::at(number, place))
    }
}
