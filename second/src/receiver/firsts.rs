//! Where each zone and each string was first named: the place of a refusal 13 or 14.

use crate::element::id;
use crate::reader::seen::DEVICES;
use crate::reader::sets::NumberSet;

/// No place of a table.
const NOWHERE: u16 = u16::MAX;

/// By number. The last zone stands for none, and so does string 0.
#[derive(Clone, Debug, PartialEq, Eq)]
pub struct Firsts {
    zones: [u16; 257],
    strings: [u16; 256],
}

impl Firsts {
    pub fn new() -> Firsts {
        Firsts {
            zones: [NOWHERE; 257],
            strings: [NOWHERE; 256],
        }
    }

    /// The description's string index.
    pub fn described(&mut self, string: u8) {
        self.strings[usize::from(string)] = 0;
    }

    /// What the element at the front of `rest` names: a device a string in byte 3 and a zone in byte 7, a zone
    /// descriptor a string in byte 4. Places rise, so that the least is the first.
    #[inline(always)]
    pub fn note(&mut self, identifier: u8, rest: &[u8], place: usize) {
        let Some(e) = rest.first_chunk::<8>() else {
            return;
        };
        let place = place as u16;
        let device = DEVICES >> (identifier & 63) & 1 != 0;
        let zone = if device { usize::from(e[7]) } else { 256 };
        let of_zone = if identifier == id::ZONE { e[4] } else { 0 };
        let string = usize::from(if device { e[3] } else { of_zone });
        self.zones[zone] = self.zones[zone].min(place);
        self.strings[string] = self.strings[string].min(place);
    }

    /// The first place that names a zone which nobody declares.
    #[cold]
    pub fn zone(&self, declared: &NumberSet) -> usize {
        first(&self.zones[..256], declared)
    }

    /// The first place that names a string which nobody declares.
    #[cold]
    pub fn string(&self, declared: &NumberSet) -> usize {
        first(&self.strings, declared)
    }
}

fn first(places: &[u16], declared: &NumberSet) -> usize {
    let undeclared = (0..=255u8).filter(|&number| !declared.has(number));
    let places = undeclared.map(|number| places[usize::from(number)]);
    usize::from(places.min().unwrap_or(NOWHERE))
}
