//! What an accepted table has to share out: zone numbers, string numbers and pins.

use super::around::AROUND;
use super::raw;
use super::texts::{text, LONGEST};
use crate::element::id;
use crate::pins::{ALL, CHIP_SELECT, FAULT_LED};
use crate::random::Random;
use crate::settings::Settings;

/// How a pin has been given out so far.
#[derive(Clone, Copy, PartialEq, Eq)]
pub(super) enum Given {
    Free,
    Shared,
    Select,
    Alone,
}

pub struct Pool<'r> {
    pub random: &'r mut Random,
    zones: Vec<u8>,
    strings: Vec<u8>,
    pub(super) pins: [Given; 256],
    /// The bus types in use.
    pub(super) buses: &'static [u8],
    /// Junk in reserved places, or zeros as they should be.
    junk: bool,
    /// Rather pins around the four than others.
    near: bool,
    /// One pin of the fan list to each fan and each pump.
    pub(super) sparing: bool,
}

/// So many different numbers from `low` to 255.
fn distinct(random: &mut Random, low: u8, count: usize) -> Vec<u8> {
    let mut all: Vec<u8> = (low..=255).collect();
    random.shuffle(&mut all);
    all.truncate(count);
    all
}

impl<'r> Pool<'r> {
    /// Pins that the chip lacks are not given out, nor bus types that are retired.
    pub fn new(
        random: &'r mut Random,
        settings: Settings,
        zones: usize,
        strings: usize,
    ) -> Pool<'r> {
        let zones = distinct(random, 0, zones);
        let strings = distinct(random, 1, strings);
        let junk = random.chance(60);
        let near = random.chance(20);
        let mut pins = [Given::Alone; 256];
        for pin in ALL.into_iter().filter(|&pin| settings.chip.has(pin)) {
            pins[usize::from(pin)] = Given::Free;
        }
        pins[usize::from(FAULT_LED)] = Given::Alone;
        Pool {
            random,
            zones,
            strings,
            pins,
            buses: settings.rules.buses(),
            junk,
            near,
            sparing: false,
        }
    }

    /// From now on rather pins around the four than others.
    pub fn stay_near(&mut self) {
        self.near = true;
    }

    /// From now on one pin to each fan and each pump, so that both kinds and an RGB LED find theirs.
    pub fn spare_pins(&mut self) {
        self.sparing = true;
    }

    /// A byte for a reserved place.
    pub(super) fn spare(&mut self) -> u8 {
        match (self.junk, self.random.below(3)) {
            (false, _) => 0,
            (true, 0) => 0xFF,
            (true, _) => self.random.byte(),
        }
    }

    /// 0 or the number of a string that is there.
    pub(super) fn string_index(&mut self) -> u8 {
        if self.strings.is_empty() || self.random.chance(40) {
            0
        } else {
            *self.random.pick(&self.strings)
        }
    }

    /// Takes one free pin of the list for one use alone.
    pub(super) fn take_alone(&mut self, list: &[u8]) -> Option<u8> {
        let mut free = list.to_vec();
        free.retain(|&pin| self.pins[usize::from(pin)] == Given::Free);
        if self.near && free.iter().any(|pin| AROUND.contains(pin)) {
            free.retain(|pin| AROUND.contains(pin));
        }
        if free.is_empty() {
            return None;
        }
        let pin = *self.random.pick(&free);
        self.pins[usize::from(pin)] = Given::Alone;
        Some(pin)
    }

    /// Takes all pins of the list in common with others; false when one of them is gone.
    pub(super) fn take_shared(&mut self, list: &[u8]) -> bool {
        let gone = |given| given == Given::Alone || given == Given::Select;
        if list.iter().any(|&pin| gone(self.pins[usize::from(pin)])) {
            return false;
        }
        for &pin in list {
            self.pins[usize::from(pin)] = Given::Shared;
        }
        true
    }

    /// A chip select, perhaps one that another device has already.
    pub(super) fn take_select(&mut self) -> Option<u8> {
        let mut used = CHIP_SELECT.to_vec();
        used.retain(|&pin| self.pins[usize::from(pin)] == Given::Select);
        if !used.is_empty() && self.random.chance(70) {
            return Some(*self.random.pick(&used));
        }
        let pin = self.take_alone(&CHIP_SELECT)?;
        self.pins[usize::from(pin)] = Given::Select;
        Some(pin)
    }

    pub fn description(&mut self) -> [u8; 16] {
        let mut head = raw::TABLE_A;
        head[3] = self.random.between(1, 3) as u8;
        head[4] = self.string_index();
        head[5..8].fill_with(|| self.random.byte());
        head[8] = if self.random.chance(50) {
            0x80 | self.random.byte()
        } else {
            self.random.between(0, 125) as u8
        };
        let strapped = self.random.chance(30);
        for pin in &mut head[9..12] {
            if strapped && self.random.chance(50) {
                *pin = self.take_alone(&ALL).unwrap_or(0xFF);
            }
        }
        head[12..16].fill_with(|| self.spare());
        head
    }

    /// A device of this kind, or of a kind that still finds its pins, at most so long.
    pub fn device(&mut self, kind: u8, room: usize) -> Vec<u8> {
        let on_a_bus = *self.random.pick(&id::ON_A_BUS);
        let found = self.first_of(&[kind, on_a_bus, id::CURRENT], room);
        found.unwrap_or_else(|| self.dark_led())
    }

    /// A device of an odd or of an even number of bytes; `None` when no odd one finds its pins.
    pub fn device_of_parity(&mut self, odd: bool, room: usize) -> Option<Vec<u8>> {
        let mut kinds = match odd {
            true => vec![id::DIGITAL_SENSOR, id::CONTROLLER, id::EXTERNAL_RGB],
            false => vec![id::TACHOMETER, id::CURRENT],
        };
        self.random.shuffle(&mut kinds);
        let found = self.first_of(&kinds, room);
        found.or_else(|| (!odd).then(|| self.dark_led()))
    }

    fn dark_led(&mut self) -> Vec<u8> {
        let fields = self.led_fields(false);
        self.whole(id::STATUS_LED, fields)
    }

    /// A device of the first of these kinds that finds its pins.
    fn first_of(&mut self, kinds: &[u8], room: usize) -> Option<Vec<u8>> {
        let mut kinds = kinds.iter();
        let (kind, fields) = kinds.find_map(|&kind| Some((kind, self.fields(kind, room)?)))?;
        Some(self.whole(kind, fields))
    }

    /// The fields with string index, position and zone before them.
    fn whole(&mut self, kind: u8, fields: Vec<u8>) -> Vec<u8> {
        let mut body = vec![self.string_index()];
        body.extend(self.position());
        body.push(*self.random.pick(&self.zones));
        body.extend(fields);
        raw::element(kind, &body)
    }

    fn position(&mut self) -> [u8; 3] {
        if self.random.chance(30) {
            return [0xFF; 3];
        }
        [(); 3].map(|()| *self.random.pick(&[0, 1, 40, 200, 0xFE, 0xFF]))
    }

    pub fn zone_elements(&mut self) -> Vec<Vec<u8>> {
        let numbers = self.zones.clone();
        numbers
            .into_iter()
            .map(|number| {
                let mut body = vec![number, self.string_index()];
                body.extend(self.random.bytes(25));
                raw::element(id::ZONE, &body)
            })
            .collect()
    }

    /// All strings, their texts within `room` bytes; exactly that much, if it is even, when asked for. None is
    /// longer than `longest` units unless there is no other way.
    pub fn string_elements(&mut self, room: usize, exact: bool, longest: usize) -> Vec<Vec<u8>> {
        let mut room = room / 2;
        let count = self.strings.len();
        let mut lengths = Vec::new();
        for _ in 0..count {
            let wanted = match self.random.below(10) {
                0..=2 => 0,
                3..=8 => self.random.between(0, longest.min(LONGEST)),
                _ => self.random.between(0, longest),
            };
            lengths.push(wanted.min(room));
            room -= wanted.min(room);
        }
        if exact && count > 0 {
            self.fill(&mut lengths, room, longest);
        }
        let numbers = self.strings.clone();
        numbers
            .into_iter()
            .zip(lengths)
            .map(|(number, units)| {
                let mut body = vec![number];
                body.extend(self.random.bytes(2));
                body.extend(text(self.random, units));
                raw::element(id::TEXT, &body)
            })
            .collect()
    }

    /// Adds all units that are left to some of the strings.
    fn fill(&mut self, lengths: &mut [usize], mut room: usize, longest: usize) {
        while room > 0 {
            let short: Vec<usize> = (0..lengths.len())
                .filter(|&at| lengths[at] < longest)
                .collect();
            let (at, most) = match short.is_empty() {
                true => (self.random.below(lengths.len()), room),
                false => {
                    let at = *self.random.pick(&short);
                    (at, room.min(longest - lengths[at]))
                }
            };
            let more = most.min(self.random.between(1, 32));
            lengths[at] += more;
            room -= more;
        }
    }
}
