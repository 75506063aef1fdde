//! Is there a fan in this zone? Asked of both sides, on an accepted table with every zone number that stands in it somewhere.

mod asking;
mod known;
mod tally;

use crate::answer::Answer;
use crate::exchange::Exchange;
use crate::options::Options;
use crate::question::Origin;
use crate::settings;
use asking::Asking;
use second::{Settings, Verdict};
use std::rc::Rc;

pub use asking::{second, Asking as Zones};
pub use tally::Tally;

pub struct Fans(Exchange<Asking, Tally>);

/// Where the table is accepted every number that some byte of it holds, so that a zone looked for in a wrong place is found there; and
/// three more, by its length another one each time. The refusals know no zone: of a refused one these three.
fn zones(table: &[u8], settings: u64) -> Vec<u8> {
    let mut asked = [false; 256];
    for zone in [0, table.len() as u8, 255] {
        asked[zone as usize] = true;
    }
    if let Verdict::Accepted(_) = second::check(table, Settings::of_number(settings)) {
        for &byte in table {
            asked[byte as usize] = true;
        }
    }
    (0..=255).filter(|&zone| asked[zone as usize]).collect()
}

impl Fans {
    pub fn start(options: &Options) -> Result<Fans, String> {
        Exchange::start(options).map(Fans)
    }

    pub fn table(&mut self, origin: Origin, settings: u64, table: &Rc<[u8]>) -> Result<(), String> {
        self.ask(Asking {
            origin,
            settings,
            table: table.clone(),
            zones: zones(table, settings),
        })
    }

    /// Holds both sides to answers that follow from the papers, with all settings.
    pub fn known(&mut self) -> Result<(), String> {
        for (row, turn) in known::rows().into_iter().zip(0..) {
            for of in Settings::ALL {
                self.row(&row, settings::reading(of, turn))?;
            }
        }
        Ok(())
    }

    fn row(&mut self, row: &known::Row, settings: u64) -> Result<(), String> {
        let asking = Asking {
            origin: Origin::Known(row.name),
            settings,
            table: row.table.clone(),
            zones: vec![row.zone],
        };
        let wanted = Answer::of(row.number, row.beside);
        let second = asking.second();
        if second != [wanted] {
            self.0.tally.differences.note(|| {
                let second = second[0];
                format!("{asking}: the second program answers {second}, not {wanted}")
            });
        }
        self.0.ask(asking, vec![wanted])
    }

    fn ask(&mut self, asking: Asking) -> Result<(), String> {
        let second = asking.second();
        self.0.ask(asking, second)
    }

    /// So far, the calls that are not yet answered left out.
    pub fn differences(&self) -> u64 {
        self.0.tally.differences.0
    }

    pub fn finish(self) -> Result<Tally, String> {
        self.0.finish()
    }
}
