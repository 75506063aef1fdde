//! Intel HEX: tables there and back on both sides, and texts that are not taken.

mod edges;
mod known;
mod moving;
mod tally;

use crate::answer::Answer;
use crate::exchange::Exchange;
use crate::options::Options;
use crate::outcome::Outcome;
use crate::question::Origin;
use crate::settings::writing;
use moving::Moving;
use second::generator::hex_text;
use second::random::Random;
use second::{Chip, Rules, Settings, Verdict};
use std::rc::Rc;

pub use moving::Way;
pub use tally::Tally;

pub struct Hex {
    exchange: Exchange<Moving, Tally>,
    /// Texts at the edges asked so far: chips and ignored bits take turns.
    asked: u64,
}

/// An altered text is made of no more bytes than these.
const ALTERED: usize = 1_000;

fn accepted(table: &[u8], chip: Chip) -> bool {
    let verdict = second::check(table, Settings::new(chip, Rules::Archive));
    matches!(verdict, Verdict::Accepted(_))
}

/// Every eighth table is moved, one of each eight and another one the next time: what a table is, the other calls ask.
fn has_its_turn(turn: u64) -> bool {
    (turn + turn / 8).is_multiple_of(8)
}

/// Half of those that are moved, whatever chip they were made for.
fn every_other(turn: u64) -> bool {
    (turn / 64).is_multiple_of(2)
}

/// What is written needs so much: just that, one byte less, and now and then more. With a refusal all of it or little.
fn rooms(accepted: bool, needed: usize, turn: u64) -> Vec<usize> {
    let some = turn as usize % 50;
    match (accepted, every_other(turn)) {
        (true, false) => vec![needed, needed - 1],
        (true, true) => vec![needed, needed - 1, needed + 1 + some],
        (false, false) => vec![needed],
        (false, true) => vec![some],
    }
}

impl Hex {
    pub fn start(options: &Options) -> Result<Hex, String> {
        let exchange = Exchange::start(options)?;
        let asked = 0;
        Ok(Hex { exchange, asked })
    }

    /// A table there and back; its text in records of another length; and altered.
    pub fn table(
        &mut self,
        origin: Origin,
        chip: Chip,
        turn: u64,
        table: &Rc<[u8]>,
    ) -> Result<(), String> {
        if !has_its_turn(turn) {
            return Ok(());
        }
        let settings = writing(chip, turn);
        let good = accepted(table, chip);
        let text: Rc<[u8]> = second::hex::text(table, second::hex::WRITTEN).into();
        for room in rooms(good, text.len(), turn) {
            self.ask(origin, Way::There, settings, table, room)?;
        }
        for room in rooms(good, table.len(), turn) {
            self.ask(origin, Way::Back, settings, &text, room)?;
        }
        if good || every_other(turn) {
            let other = second::hex::text(table, 1 + turn as usize % 255).into();
            self.ask(origin, Way::Back, settings, &other, table.len())?;
        }
        let front = &table[..table.len().min(ALTERED)];
        let altered = hex_text(&mut Random::new(turn), front).into();
        self.ask(origin, Way::Back, settings, &altered, front.len())
    }

    /// Holds both sides to answers that follow from the papers, with all settings; then texts at the edges.
    pub fn texts(&mut self) -> Result<(), String> {
        for settings in 0..4 {
            for (name, table, comes) in known::tables() {
                self.row(name, Way::There, settings, table, comes)?;
            }
            for (name, text, comes) in known::texts() {
                self.row(name, Way::Back, settings, text, comes)?;
            }
        }
        edges::texts(&mut |name, text| self.edge(name, text))
    }

    fn edge(&mut self, name: &'static str, text: Vec<u8>) -> Result<(), String> {
        self.asked += 1;
        let settings = writing(Chip::BOTH[self.asked as usize % 2], self.asked);
        let room = [300, 16, 0, 4_096][self.asked as usize % 4];
        self.ask(Origin::Case(name), Way::Back, settings, &text.into(), room)
    }

    fn row(
        &mut self,
        name: &'static str,
        way: Way,
        settings: u64,
        lent: Vec<u8>,
        comes: known::Comes,
    ) -> Result<(), String> {
        let moving = Moving {
            origin: Origin::Known(name),
            way,
            settings,
            lent: lent.into(),
            room: 200,
        };
        let mut wanted = Outcome {
            answer: Answer::of(0, 0),
            buffer: vec![0xA5; moving.room],
        };
        match comes {
            Ok(bytes) => {
                wanted.answer = Answer::of(0, bytes.len());
                wanted.buffer[..bytes.len()].copy_from_slice(&bytes);
            }
            Err((number, place)) => wanted.answer = Answer::of(number, place),
        }
        let second = moving.second();
        if second != wanted {
            let (second, wanted) = (second.answer, wanted.answer);
            self.exchange.tally.differences.note(|| {
                format!(
                    "{moving}: the second program answers {second}, not {wanted}, or other bytes"
                )
            });
        }
        self.exchange.ask(moving, wanted)
    }

    fn ask(
        &mut self,
        origin: Origin,
        way: Way,
        settings: u64,
        lent: &Rc<[u8]>,
        room: usize,
    ) -> Result<(), String> {
        let moving = Moving {
            origin,
            way,
            settings,
            lent: lent.clone(),
            room,
        };
        let second = moving.second();
        self.exchange.ask(moving, second)
    }

    /// So far, the calls that are not yet answered left out.
    pub fn differences(&self) -> u64 {
        self.exchange.tally.differences.0
    }

    pub fn finish(self) -> Result<Tally, String> {
        self.exchange.finish()
    }
}
