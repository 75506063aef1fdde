//! Two tables side by side, on both sides: the tables of the corpus, each beside one that is nearly the same or the last one that came.

mod asking;
mod known;
mod tally;

use crate::exchange::Exchange;
use crate::options::Options;
use crate::question::Origin;
use crate::settings::writing;
use asking::{packed, Asking};
use second::generator::{beside, touches_the_four};
use second::random::Random;
use second::{Chip, Rules, Settings};
use std::rc::Rc;

pub use asking::{second, Asking as Pair};
pub use tally::Tally;

pub struct Pairs {
    exchange: Exchange<Asking, Tally>,
    /// For the tables that are nearly the same.
    random: Random,
    /// The last table that was accepted, and the last that was refused.
    accepted: Rc<[u8]>,
    refused: Rc<[u8]>,
}

impl Pairs {
    pub fn start(options: &Options) -> Result<Pairs, String> {
        Ok(Pairs {
            exchange: Exchange::start(options)?,
            random: Random::new(514),
            accepted: second::generator::raw::TABLE_A.into(),
            refused: Rc::new([]),
        })
    }

    /// An accepted table beside one that is nearly the same, every second time both ways; and every eighth time beside the last one. Of
    /// the refused ones every fourth, beside one that is accepted, mostly, and on either side in turn.
    pub fn table(
        &mut self,
        origin: Origin,
        turn: u64,
        made_for: Settings,
        table: &Rc<[u8]>,
    ) -> Result<(), String> {
        let archive = Settings::new(made_for.chip, Rules::Archive);
        if second::check(table, archive).number() != 0 {
            let other = match turn % 16 {
                0 | 9 => self.refused.clone(),
                _ => self.accepted.clone(),
            };
            self.refused = table.clone();
            return match turn % 8 {
                0 => self.ask(origin, turn, made_for.chip, table, &other),
                1 => self.ask(origin, turn, made_for.chip, &other, table),
                _ => Ok(()),
            };
        }
        let near: Rc<[u8]> = beside(&mut self.random, table, made_for).into();
        self.ask(origin, turn, made_for.chip, table, &near)?;
        if turn.is_multiple_of(2) {
            self.ask(origin, turn, made_for.chip, &near, table)?;
        }
        let last = std::mem::replace(&mut self.accepted, table.clone());
        match turn % 8 {
            0 => self.ask(origin, turn, made_for.chip, table, &last),
            _ => Ok(()),
        }
    }

    /// On the chip that the first was made for; on both where one of the four pins is in a pin place, and now and then.
    fn ask(
        &mut self,
        origin: Origin,
        turn: u64,
        chip: Chip,
        one: &Rc<[u8]>,
        two: &Rc<[u8]>,
    ) -> Result<(), String> {
        let both = turn.is_multiple_of(16) || touches_the_four(one) || touches_the_four(two);
        for chip in [chip, chip.other()].into_iter().take(1 + usize::from(both)) {
            let asking = Asking {
                origin,
                settings: writing(chip, turn),
                one: one.clone(),
                two: two.clone(),
            };
            let second = asking.second();
            self.exchange.ask(asking, second)?;
        }
        Ok(())
    }

    /// Holds both sides to what follows from the papers, on both chips and with bit 1 set and not.
    pub fn known(&mut self) -> Result<(), String> {
        for (row, turn) in known::rows().into_iter().zip(0..) {
            for chip in Chip::BOTH {
                self.row(&row, writing(chip, turn))?;
            }
        }
        Ok(())
    }

    fn row(&mut self, row: &known::Row, settings: u64) -> Result<(), String> {
        let asking = Asking {
            origin: Origin::Known(row.name),
            settings,
            one: row.one.clone(),
            two: row.two.clone(),
        };
        let second = asking.second();
        if second != row.wanted {
            self.exchange.tally.differences.note(|| {
                let answer = second.answer;
                format!("{asking}: the second program answers {answer}, or has another text")
            });
        }
        self.exchange.ask(asking, row.wanted.clone())
    }

    /// So far, the calls that are not yet answered left out.
    pub fn differences(&self) -> u64 {
        self.exchange.tally.differences.0
    }

    pub fn finish(self) -> Result<Tally, String> {
        self.exchange.finish()
    }
}
