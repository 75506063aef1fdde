//! Which elements of the file are kept: where they stand, which have gone since, and whose string index is cleared.

use crate::answer::{DESCRIPTION_LENGTH, MOST_ELEMENTS};
use crate::element::{id, word};

/// A bit for each element that the pass has kept, in order.
type Bits = u128;

pub struct Marks {
    places: [u16; MOST_ELEMENTS],
    count: usize,
    gone: Bits,
    cleared: Bits,
}

impl Marks {
    pub fn new() -> Marks {
        Marks {
            places: [0; MOST_ELEMENTS],
            count: 0,
            gone: 0,
            cleared: 0,
        }
    }

    pub fn full(&self) -> bool {
        self.count == MOST_ELEMENTS
    }

    pub fn keep(&mut self, place: usize) {
        self.places[self.count] = place as u16;
        self.count += 1;
    }

    /// Those go of which this is true. It is asked of each that is still kept, in order, by its place and its bytes.
    pub fn leave_out(&mut self, file: &[u8], falls: impl FnMut(usize, &[u8]) -> bool) {
        self.gone |= self.which(file, falls);
    }

    /// The string index of those is cleared of which this is true.
    pub fn clear(&mut self, file: &[u8], unnamed: impl FnMut(usize, &[u8]) -> bool) {
        self.cleared |= self.which(file, unnamed);
    }

    fn which(&self, file: &[u8], mut asked: impl FnMut(usize, &[u8]) -> bool) -> Bits {
        let mut bits = 0;
        for at in self.left() {
            let element = self.element(file, at);
            bits |= Bits::from(asked(self.place(at), element)) << at;
        }
        bits
    }

    /// The numbers of those still kept, counted as the pass did.
    fn left(&self) -> impl Iterator<Item = usize> + '_ {
        (0..self.count).filter(|at| self.gone >> at & 1 == 0)
    }

    fn place(&self, at: usize) -> usize {
        usize::from(self.places[at])
    }

    fn element<'f>(&self, file: &'f [u8], at: usize) -> &'f [u8] {
        let place = self.place(at);
        &file[place..][..usize::from(word(file, place + 1))]
    }

    /// Puts description and elements, as far as they are still kept, at the front of `out`, and gives their length. Those
    /// that stood end to end are copied at once.
    pub fn put(&self, file: &[u8], out: &mut [u8]) -> usize {
        let mut length = 0;
        let (mut from, mut to) = (0, DESCRIPTION_LENGTH);
        for at in self.left() {
            let place = self.place(at);
            if place != to {
                out[length..][..to - from].copy_from_slice(&file[from..to]);
                length += to - from;
                from = place;
            }
            to = place + usize::from(word(file, place + 1));
        }
        out[length..][..to - from].copy_from_slice(&file[from..to]);
        length += to - from;
        if self.cleared & !self.gone != 0 {
            self.clear_indexes(&mut out[..length]);
        }
        length
    }

    fn clear_indexes(&self, table: &mut [u8]) {
        let mut place = DESCRIPTION_LENGTH;
        for at in self.left() {
            let length = usize::from(word(table, place + 1));
            if self.cleared >> at & 1 != 0 {
                table[place + index_at(table[place])] = 0;
            }
            place += length;
        }
    }
}

/// Where an element that is no string has its string index.
pub fn index_at(identifier: u8) -> usize {
    match identifier {
        id::ZONE => 4,
        _ => 3,
    }
}
