//! Asks the driver and the second program the same of tables, and compares.

use crate::answer::Answer;
use crate::call::Call;
use crate::exchange::Exchange;
use crate::fans::Fans;
use crate::fields::Fields;
use crate::hex::Hex;
use crate::known::Row;
use crate::options::Options;
use crate::outcome::Outcome;
use crate::pairs::Pairs;
use crate::question::{Origin, Question};
use crate::receiving::Receiving;
use crate::removals::Removals;
use crate::salvage::Salvage;
use crate::settings;
use crate::sheets::Sheets;
use crate::tally::Tally;
use crate::traces::Traces;
use second::generator::any;
use second::random::Random;
use second::{Chip, Settings};
use std::rc::Rc;

pub struct Comparison {
    exchange: Exchange<Question, Tally>,
    /// Ask for elements and their variable parts too.
    elements: bool,
    /// Ask for the listing too.
    listing: bool,
    /// Ask for every field of every element too.
    fields: Option<Fields>,
    /// Ask for a fan in every zone too.
    fans: Option<Fans>,
    /// Take every element out too.
    removals: Option<Removals>,
    /// Ask for the pin sheet too, and while tables are built.
    sheets: Option<Sheets>,
    /// Move every table to HEX and back too.
    hex: Option<Hex>,
    /// Have every table received in pieces too.
    receiving: Option<Receiving>,
    /// Hold tables side by side too.
    pairs: Option<Pairs>,
    /// Run traces through tables too.
    traces: Option<Traces>,
    /// Save what can be saved too, also of files that are no tables.
    salvage: Option<Salvage>,
}

/// Numbers that no table has, and that are small ones in their low bits.
pub const HUGE: [u64; 4] = [u64::MAX, 1 << 63, 1 << 32, (1 << 16) + 1];

/// Where sheets are asked for, beside every so many seeded tables one is built.
const BUILT: u64 = 40;

/// First, middle, last, one too many and far too many; of a refused table the first and the last.
fn places(check: Answer, length: usize) -> Vec<u64> {
    let huge = HUGE[length % HUGE.len()];
    let mut list = vec![0, huge];
    if check.number() == 0 {
        let count = check.0 >> 8;
        list.extend([count / 2, count.saturating_sub(1), count]);
    }
    list.sort_unstable();
    list.dedup();
    list
}

impl Comparison {
    pub fn start(options: &Options) -> Result<Comparison, String> {
        Ok(Comparison {
            exchange: Exchange::start(options)?,
            fields: match options.fields {
                true => Some(Fields::start(options)?),
                false => None,
            },
            fans: match options.fans {
                true => Some(Fans::start(options)?),
                false => None,
            },
            removals: match options.removals {
                true => Some(Removals::start(options)?),
                false => None,
            },
            sheets: match options.sheets {
                true => Some(Sheets::start(options)?),
                false => None,
            },
            hex: match options.hex {
                true => Some(Hex::start(options)?),
                false => None,
            },
            receiving: match options.receive {
                true => Some(Receiving::start(options)?),
                false => None,
            },
            pairs: match options.pairs {
                true => Some(Pairs::start(options)?),
                false => None,
            },
            traces: match options.traces {
                true => Some(Traces::start(options)?),
                false => None,
            },
            salvage: match options.salvage {
                true => Some(Salvage::start(options)?),
                false => None,
            },
            elements: options.elements,
            listing: options.listing,
        })
    }

    /// Compares all calls on a table of any sort; the settings that they are made for take turns.
    pub fn seeded(&mut self, random: &mut Random, seed: u64, at: u64) -> Result<(), String> {
        let made_for = Settings::ALL[at as usize % 4];
        self.table(Origin::Seeded { seed, at }, made_for, any(random, made_for))?;
        if let Some(salvage) = &mut self.salvage {
            salvage.wrecked(seed, at)?;
        }
        match &mut self.sheets {
            Some(sheets) if at.is_multiple_of(BUILT) => {
                sheets.build(Origin::Built { seed, at }, at / BUILT)
            }
            _ => Ok(()),
        }
    }

    /// Compares all calls on one table, with all settings that it is read with; its parts once.
    pub fn table(
        &mut self,
        origin: Origin,
        made_for: Settings,
        table: Vec<u8>,
    ) -> Result<(), String> {
        let table: Rc<[u8]> = table.into();
        let turn = self.exchange.tally.tables;
        self.exchange.tally.tables += 1;
        let all = settings::of_table(made_for, turn, &table);
        for &settings in &all {
            let number = settings::reading(settings, turn);
            self.calls(origin, number, &table)?;
            self.fields(origin, number, &table, settings == made_for)?;
            self.fans(origin, number, &table)?;
            self.sheets(origin, number, &table)?;
            self.receive(origin, number, &table)?;
        }
        self.removals(origin, turn, &table)?;
        self.hex(origin, &all, turn, &table)?;
        self.pairs(origin, turn, made_for, &table)?;
        self.traces(origin, turn, made_for, &table)?;
        self.salvage(origin, turn, made_for.chip, &table)
    }

    fn calls(&mut self, origin: Origin, settings: u64, table: &Rc<[u8]>) -> Result<(), String> {
        let check = Call::Check.second(table, settings);
        let places = if self.elements {
            places(check.answer, table.len())
        } else {
            Vec::new()
        };
        self.ask(origin, Call::Check, settings, table, check)?;
        for k in places {
            for call in [Call::Element(k), Call::Part(k)] {
                let second = call.second(table, settings);
                self.ask(origin, call, settings, table, second)?;
            }
        }
        self.listing(origin, settings, table)
    }

    /// Holds both sides to an answer that the paper gives.
    pub fn known(&mut self, row: Row) -> Result<(), String> {
        if row.call != Call::Check && !self.elements {
            return Ok(());
        }
        let origin = Origin::Known(row.name);
        let table: Rc<[u8]> = row.table.into();
        let turn = self.exchange.tally.tables;
        let settings = settings::reading(row.settings, turn);
        let second = row.call.second(&table, settings).answer;
        if second != row.answer {
            self.exchange.tally.differences.note(|| {
                let (call, answer) = (row.call, row.answer);
                format!("{origin}: {call}: the second program answers {second}, not {answer}")
            });
        }
        self.exchange.tally.tables += 1;
        self.ask(origin, row.call, settings, &table, row.answer.into())?;
        self.listing(origin, settings, &table)?;
        self.fields(origin, settings, &table, true)?;
        self.fans(origin, settings, &table)?;
        self.removals(origin, turn, &table)?;
        self.sheets(origin, settings, &table)?;
        self.hex(origin, &[row.settings], turn, &table)?;
        self.receive(origin, settings, &table)?;
        self.pairs(origin, turn, row.settings, &table)?;
        self.traces(origin, turn, row.settings, &table)?;
        self.salvage(origin, turn, row.settings.chip, &table)
    }

    /// Holds both sides to the papers' answers of fans, if they are asked for.
    pub fn known_fans(&mut self) -> Result<(), String> {
        self.fans.as_mut().map_or(Ok(()), Fans::known)
    }

    /// The same of what is taken out.
    pub fn known_removals(&mut self) -> Result<(), String> {
        self.removals.as_mut().map_or(Ok(()), Removals::known)
    }

    /// The same of sheets.
    pub fn known_sheets(&mut self) -> Result<(), String> {
        self.sheets.as_mut().map_or(Ok(()), Sheets::known)
    }

    /// Holds both sides to the papers' answers of texts in HEX, and compares those at the edges.
    pub fn hex_texts(&mut self) -> Result<(), String> {
        self.hex.as_mut().map_or(Ok(()), Hex::texts)
    }

    /// The same of tables side by side.
    pub fn known_pairs(&mut self) -> Result<(), String> {
        self.pairs.as_mut().map_or(Ok(()), Pairs::known)
    }

    /// The same of what can be saved.
    pub fn known_salvages(&mut self) -> Result<(), String> {
        self.salvage.as_mut().map_or(Ok(()), Salvage::known)
    }

    /// Compares the calls on parts at their edges.
    pub fn part_edges(&mut self) -> Result<(), String> {
        self.fields.as_mut().map_or(Ok(()), Fields::part_edges)
    }

    /// Compares receivers at their edges.
    pub fn receiving_edges(&mut self) -> Result<(), String> {
        self.receiving.as_mut().map_or(Ok(()), Receiving::edges)
    }

    /// Holds both sides to the papers' answers of traces, and compares those at the edges.
    pub fn trace_edges(&mut self) -> Result<(), String> {
        self.traces.as_mut().map_or(Ok(()), Traces::edges)
    }

    fn receive(&mut self, origin: Origin, settings: u64, table: &Rc<[u8]>) -> Result<(), String> {
        match &mut self.receiving {
            Some(receiving) => receiving.table(origin, settings, table),
            None => Ok(()),
        }
    }

    /// Those of its parts too, if they are asked for.
    fn fields(
        &mut self,
        origin: Origin,
        settings: u64,
        table: &Rc<[u8]>,
        parts: bool,
    ) -> Result<(), String> {
        let Some(fields) = &mut self.fields else {
            return Ok(());
        };
        fields.table(origin, settings, table, parts)
    }

    fn fans(&mut self, origin: Origin, settings: u64, table: &Rc<[u8]>) -> Result<(), String> {
        let Some(fans) = &mut self.fans else {
            return Ok(());
        };
        fans.table(origin, settings, table)
    }

    fn removals(&mut self, origin: Origin, turn: u64, table: &Rc<[u8]>) -> Result<(), String> {
        let Some(removals) = &mut self.removals else {
            return Ok(());
        };
        removals.table(origin, turn, table)
    }

    fn sheets(&mut self, origin: Origin, settings: u64, table: &Rc<[u8]>) -> Result<(), String> {
        let Some(sheets) = &mut self.sheets else {
            return Ok(());
        };
        sheets.table(origin, settings, table)
    }

    /// Once for each chip: the rules are the archive's, whatever the settings say.
    fn hex(
        &mut self,
        origin: Origin,
        all: &[Settings],
        turn: u64,
        table: &Rc<[u8]>,
    ) -> Result<(), String> {
        let Some(hex) = &mut self.hex else {
            return Ok(());
        };
        for chip in Chip::BOTH {
            if all.iter().any(|settings| settings.chip == chip) {
                hex.table(origin, chip, turn, table)?;
            }
        }
        Ok(())
    }

    fn pairs(
        &mut self,
        origin: Origin,
        turn: u64,
        made_for: Settings,
        table: &Rc<[u8]>,
    ) -> Result<(), String> {
        let Some(pairs) = &mut self.pairs else {
            return Ok(());
        };
        pairs.table(origin, turn, made_for, table)
    }

    fn traces(
        &mut self,
        origin: Origin,
        turn: u64,
        made_for: Settings,
        table: &Rc<[u8]>,
    ) -> Result<(), String> {
        let Some(traces) = &mut self.traces else {
            return Ok(());
        };
        traces.table(origin, turn, made_for, table)
    }

    fn salvage(
        &mut self,
        origin: Origin,
        turn: u64,
        chip: Chip,
        table: &Rc<[u8]>,
    ) -> Result<(), String> {
        let Some(salvage) = &mut self.salvage else {
            return Ok(());
        };
        salvage.table(origin, turn, chip, table)
    }

    fn listing(&mut self, origin: Origin, settings: u64, table: &Rc<[u8]>) -> Result<(), String> {
        if !self.listing {
            return Ok(());
        }
        let second = Call::List.second(table, settings);
        self.ask(origin, Call::List, settings, table, second)
    }

    fn ask(
        &mut self,
        origin: Origin,
        call: Call,
        settings: u64,
        table: &Rc<[u8]>,
        expected: Outcome,
    ) -> Result<(), String> {
        let table = table.clone();
        let question = Question {
            origin,
            call,
            settings,
            table,
        };
        self.exchange.ask(question, expected)
    }

    /// So far, the calls that are not yet answered left out.
    pub fn differences(&self) -> u64 {
        let fields = self.fields.as_ref().map_or(0, Fields::differences);
        let fans = self.fans.as_ref().map_or(0, Fans::differences);
        let removals = self.removals.as_ref().map_or(0, Removals::differences);
        let sheets = self.sheets.as_ref().map_or(0, Sheets::differences);
        let hex = self.hex.as_ref().map_or(0, Hex::differences);
        let receiving = self.receiving.as_ref().map_or(0, Receiving::differences);
        let pairs = self.pairs.as_ref().map_or(0, Pairs::differences);
        let traces = self.traces.as_ref().map_or(0, Traces::differences);
        let salvage = self.salvage.as_ref().map_or(0, Salvage::differences);
        let asked_of_tables = fields + fans + removals + sheets + hex + receiving + pairs;
        let asked_of_tables = asked_of_tables + traces + salvage;
        self.exchange.tally.all_differences() + asked_of_tables
    }

    pub fn finish(self) -> Result<Tally, String> {
        let mut tally = self.exchange.finish()?;
        tally.fields = self.fields.map(Fields::finish).transpose()?;
        tally.fans = self.fans.map(Fans::finish).transpose()?;
        tally.removals = self.removals.map(Removals::finish).transpose()?;
        tally.sheets = self.sheets.map(Sheets::finish).transpose()?;
        tally.hex = self.hex.map(Hex::finish).transpose()?;
        tally.receiving = self.receiving.map(Receiving::finish).transpose()?;
        tally.pairs = self.pairs.map(Pairs::finish).transpose()?;
        tally.traces = self.traces.map(Traces::finish).transpose()?;
        tally.salvage = self.salvage.map(Salvage::finish).transpose()?;
        Ok(tally)
    }
}
