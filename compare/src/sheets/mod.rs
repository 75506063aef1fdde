//! Pin sheets on both sides: made afresh of every table, brought forward while tables are built, and their text.

mod asking;
mod building;
mod call;
mod known;
mod tally;

use crate::answer::Answer;
use crate::exchange::Exchange;
use crate::options::{Command, Options};
use crate::question::Origin;
use crate::settings::{self, of_writing};
use building::Plan;
use call::{sheet_of, Does};
use second::random::Random;
use second::sheet::{FREE, LED};
use second::{Chip, Settings, Sheet};
use std::rc::Rc;

pub use asking::Asking;
pub use call::SheetCall;
pub use tally::Tally;

pub struct Sheets {
    exchange: Exchange<Asking, Tally>,
    /// For the numbers that are in a sheet before a call, and for the tables that are built.
    random: Random,
}

/// A table while it is built.
struct Built {
    table: Rc<[u8]>,
    accepted: bool,
    /// Of the last table that was accepted.
    sheet: Sheet,
}

/// Any numbers: free more often than not, the fault LED's, places, and what none of them is.
fn any_sheet(random: &mut Random) -> Sheet {
    std::array::from_fn(|_| match random.below(10) {
        0..=4 => FREE,
        5 => LED,
        6 => random.below(4_096) as u16,
        7 => *random.pick(&[0, 9, 10, 99, 100, 999, 1_000, 9_999, 10_000, 65_533]),
        _ => random.word() as u16,
    })
}

impl Sheets {
    pub fn start(options: &Options) -> Result<Sheets, String> {
        let seed = match options.command {
            Command::Long { seed, .. } => seed,
            _ => 914,
        };
        Ok(Sheets {
            exchange: Exchange::start(options)?,
            random: Random::new(seed),
        })
    }

    fn call(&mut self, does: Does) -> SheetCall {
        let sheet = any_sheet(&mut self.random);
        SheetCall { does, sheet }
    }

    /// Made afresh and brought forward over any numbers; and the text of what the first has left.
    pub fn table(&mut self, origin: Origin, settings: u64, table: &Rc<[u8]>) -> Result<(), String> {
        let mut calls = vec![self.call(Does::Afresh), self.call(Does::Forward)];
        let afresh = calls[0].second(table, settings);
        let (does, sheet) = (Does::Text, sheet_of(&afresh.buffer));
        calls.push(SheetCall { does, sheet });
        let asking = Asking {
            origin,
            settings,
            table: table.clone(),
            calls,
        };
        self.ask(asking)
    }

    /// Builds a table, and asks after every append; now and then an element of another table is appended in between, and
    /// taken back. Chips take turns.
    pub fn build(&mut self, origin: Origin, turn: u64) -> Result<(), String> {
        let plan = building::plan(&mut self.random, Chip::BOTH[turn as usize % 2]);
        let nothing = Built {
            table: Rc::new([]),
            accepted: false,
            sheet: any_sheet(&mut self.random),
        };
        let mut built = self.step(origin, &plan, &nothing, plan.started())?;
        for element in &plan.elements {
            if self.random.chance(40) {
                let stranger = plan.stranger(&built.table, &mut self.random);
                let longer = stranger.and_then(|one| plan.appended(&built.table, &one));
                if let Some(longer) = longer {
                    self.step(origin, &plan, &built, longer)?;
                }
            }
            let longer = plan.appended(&built.table, element).expect("it has room");
            built = self.step(origin, &plan, &built, longer)?;
        }
        Ok(())
    }

    /// One table more, from the one before. Where both are accepted the sheet brought forward is the one made afresh.
    fn step(
        &mut self,
        origin: Origin,
        plan: &Plan,
        before: &Built,
        table: Vec<u8>,
    ) -> Result<Built, String> {
        let table: Rc<[u8]> = table.into();
        let (does, sheet) = (Does::Forward, before.sheet);
        let forward = SheetCall { does, sheet };
        let calls = vec![forward, self.call(Does::Afresh), self.call(Does::Forward)];
        let asking = Asking {
            origin,
            settings: settings::writing(plan.chip, self.random.word()),
            table: table.clone(),
            calls,
        };
        let second = asking.second();
        let accepted = second[0].answer.number() == 0;
        let tally = &mut self.exchange.tally;
        if before.accepted {
            tally.stepped(plan.chip, accepted);
        }
        if before.accepted && accepted && second[0].buffer != second[1].buffer {
            tally
                .differences
                .note(|| format!("{asking}: the second program's two sheets differ"));
        }
        let sheet = match accepted {
            true => sheet_of(&second[1].buffer),
            false => before.sheet,
        };
        self.exchange.ask(asking, second)?;
        Ok(Built {
            table,
            accepted,
            sheet,
        })
    }

    /// Holds both sides to sheets that follow from the papers, with all settings, and to the text of A's.
    pub fn known(&mut self) -> Result<(), String> {
        for (row, turn) in known::rows().into_iter().zip(0..) {
            for of in Settings::ALL {
                self.row(&row, settings::reading(of, turn))?;
            }
        }
        Ok(())
    }

    fn row(&mut self, row: &known::Row, settings: u64) -> Result<(), String> {
        let mut asking = Asking {
            origin: Origin::Known(row.name),
            settings,
            table: row.table.clone(),
            calls: vec![row.call],
        };
        let second = asking.second();
        let wanted = Answer::of(row.number, row.beside);
        if second[0].answer != wanted || sheet_of(&second[0].buffer) != row.sheet {
            let tally = &mut self.exchange.tally;
            tally.differences.note(|| {
                let sheet = row.sheet;
                format!("{asking}: the second program has not {wanted} and {sheet:?}")
            });
        }
        if row.name == "A" {
            let (does, sheet) = (Does::Text, row.sheet);
            asking.calls.push(SheetCall { does, sheet });
            self.text_of_a(&asking);
        }
        self.ask(asking)
    }

    /// The text that document 02 wants of A.
    fn text_of_a(&mut self, asking: &Asking) {
        let lacking = |line: &&str| !["P2.4", "P2.5", "P2.6", "P2.7"].contains(&&line[..4]);
        let lines = known::TEXT_OF_A.split_inclusive('\n');
        let wanted: String = match of_writing(asking.settings) {
            Chip::F320 => lines.collect(),
            Chip::F321 => lines.filter(lacking).collect(),
        };
        let text = &asking.second()[1];
        let length = (text.answer.0 >> 8) as usize;
        if &text.buffer[..length] != wanted.as_bytes() {
            let tally = &mut self.exchange.tally;
            tally
                .differences
                .note(|| format!("{asking}: the second program's text is not that of A"));
        }
    }

    fn ask(&mut self, asking: Asking) -> Result<(), String> {
        let second = asking.second();
        self.exchange.ask(asking, second)
    }

    /// So far, the calls that are not yet answered left out.
    pub fn differences(&self) -> u64 {
        self.exchange.tally.differences.0
    }

    pub fn finish(self) -> Result<Tally, String> {
        self.exchange.finish()
    }
}
