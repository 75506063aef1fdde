//! Tables in pieces, cut in many ways, on both sides.

mod conversation;
mod cuttings;
mod edges;
mod step;
mod tally;

use crate::answer::Answer;
use crate::exchange::Exchange;
use crate::options::Options;
use crate::question::Origin;
use crate::settings;
use second::random::Random;
use second::Settings;
use std::rc::Rc;

pub use conversation::Conversation;
pub use step::Step;
pub use tally::Tally;

/// For cuts of chance.
const SEED: u64 = 414;

pub struct Receiving {
    exchange: Exchange<Conversation, Tally>,
    random: Random,
}

impl Receiving {
    pub fn start(options: &Options) -> Result<Receiving, String> {
        Ok(Receiving {
            exchange: Exchange::start(options)?,
            random: Random::new(SEED),
        })
    }

    /// The table in reports, in single bytes and in pieces of chance.
    pub fn table(&mut self, origin: Origin, settings: u64, table: &Rc<[u8]>) -> Result<(), String> {
        let steps = cuttings::of_table(table, &mut self.random);
        self.ask(origin, settings, table, steps)
    }

    /// Every cut in two of some tables; told lengths; more bytes than any number of 32 bits counts; states that no
    /// start gave.
    pub fn edges(&mut self) -> Result<(), String> {
        for (at, edge) in edges::all().into_iter().enumerate() {
            let steps = edge.steps(&mut self.random);
            let settings = settings::reading(edge.settings, at as u64);
            self.ask(Origin::Case(edge.name), settings, &edge.bytes.into(), steps)?;
        }
        Ok(())
    }

    /// Every first end of a cutting of all bytes must also be the second program's own answer to the whole.
    fn ask(
        &mut self,
        origin: Origin,
        settings: u64,
        bytes: &Rc<[u8]>,
        steps: Vec<Step>,
    ) -> Result<(), String> {
        let conversation = Conversation {
            origin,
            settings,
            bytes: bytes.clone(),
            steps,
        };
        let second = conversation.second();
        self.hold_to_the_whole(&conversation, &second);
        self.exchange.ask(conversation, second)
    }

    fn hold_to_the_whole(&mut self, conversation: &Conversation, answers: &[Answer]) {
        let settings = Settings::of_number(conversation.settings);
        let verdict = second::check(&conversation.bytes, settings);
        let whole = Answer::of(verdict.number(), verdict.beside());
        let ends = conversation.steps.iter().zip(answers);
        let mut ends = ends.filter(|(step, answer)| **step == Step::End && answer.number() != 20);
        if let Some((_, answer)) = ends.find(|(_, answer)| **answer != whole) {
            let note = || {
                format!("{conversation}: the second program answers {answer} to pieces and {whole} to the whole")
            };
            self.exchange.tally.differences.note(note);
        }
    }

    /// So far, the calls that are not yet answered left out.
    pub fn differences(&self) -> u64 {
        self.exchange.tally.differences.0
    }

    pub fn finish(self) -> Result<Tally, String> {
        self.exchange.finish()
    }
}
