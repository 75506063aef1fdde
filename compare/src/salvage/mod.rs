//! What can be saved, on both sides: of every table, and of files as a damaged chip gives them.

mod asking;
mod known;
mod tally;

use crate::exchange::Exchange;
use crate::options::Options;
use crate::question::Origin;
use crate::settings::writing;
use asking::Asking;
use second::generator::{touches_the_four, wrecked};
use second::random::Random;
use second::{Chip, Settings};
use std::rc::Rc;

pub use asking::{second, Asking as Salvaging};
pub use tally::Tally;

pub struct Salvage(Exchange<Asking, Tally>);

/// Beside every so many seeded tables one file is made as a damaged chip gives it.
const WRECKED: u64 = 2;

/// Just enough; every second time one byte less, and every fourth time none, little, more, or what the file has. With 24 one
/// of these.
fn rooms(file: &[u8], chip: Chip, turn: u64) -> Vec<usize> {
    let turn = turn as usize;
    let Ok((table, _)) = second::saved(file, chip) else {
        return vec![[0, 15, file.len(), 4_096][turn % 4]];
    };
    let enough = table.len();
    match turn % 4 {
        0 | 2 => vec![enough, enough - 1],
        1 => {
            let others = [0, 15, file.len(), 4_096, enough + 1 + turn % 50];
            vec![enough, others[turn / 4 % 5]]
        }
        _ => vec![enough],
    }
}

impl Salvage {
    pub fn start(options: &Options) -> Result<Salvage, String> {
        Exchange::start(options).map(Salvage)
    }

    /// On the chip that it was made for, and on both where one of the four pins is in a pin place.
    pub fn table(
        &mut self,
        origin: Origin,
        turn: u64,
        chip: Chip,
        file: &Rc<[u8]>,
    ) -> Result<(), String> {
        let both = touches_the_four(file);
        for chip in [chip, chip.other()].into_iter().take(1 + usize::from(both)) {
            // By fours, as the chips that tables are made for take turns too.
            for room in rooms(file, chip, turn / 4) {
                let asking = Asking {
                    origin,
                    settings: writing(chip, turn),
                    file: file.clone(),
                    room,
                };
                let second = asking.second();
                self.0.ask(asking, second)?;
            }
        }
        Ok(())
    }

    /// A file as a damaged chip gives it, beside some of the tables; the settings take turns.
    pub fn wrecked(&mut self, seed: u64, at: u64) -> Result<(), String> {
        if !at.is_multiple_of(WRECKED) {
            return Ok(());
        }
        let turn = at / WRECKED;
        let settings = Settings::ALL[turn as usize % 4];
        let file = wrecked(&mut Random::new(seed << 32 | at), settings);
        let origin = Origin::Wrecked { seed, at };
        self.table(origin, turn, settings.chip, &file.into())
    }

    /// Holds both sides to what follows from the papers, on both chips and with bit 1 set and not.
    pub fn known(&mut self) -> Result<(), String> {
        for (row, turn) in known::rows().into_iter().zip(0..) {
            for chip in Chip::BOTH {
                self.row(&row, writing(chip, turn))?;
            }
        }
        Ok(())
    }

    fn row(&mut self, row: &known::Row, settings: u64) -> Result<(), String> {
        let asking = Asking {
            origin: Origin::Known(row.name),
            settings,
            file: row.file.clone(),
            room: row.room,
        };
        let second = asking.second();
        if second != row.wanted {
            self.0
                .tally
                .differences
                .note(|| format!("{asking}: the second program answers {second}"));
        }
        self.0.ask(asking, row.wanted.clone())
    }

    /// So far, the calls that are not yet answered left out.
    pub fn differences(&self) -> u64 {
        self.0.tally.differences.0
    }

    pub fn finish(self) -> Result<Tally, String> {
        self.0.finish()
    }
}
