//! What was asked, what came back, and where the two sides differ.

use crate::answers::{of_a_table, Answers};
use crate::call::Call;
use crate::exchange::Takes;
use crate::fans;
use crate::fields;
use crate::hex::Tally as HexTally;
use crate::outcome::{hex, text, Differences, Outcome};
use crate::pairs;
use crate::question::Question;
use crate::receiving;
use crate::removals;
use crate::salvage;
use crate::sheets;
use crate::traces;
use second::Settings;

/// By mode of the driver; a listing has no number and is only counted.
const NAMES: [&str; 3] = ["check", "element", "part"];

#[derive(Default)]
pub struct Tally {
    pub tables: u64,
    pub differences: Differences,
    pub listings: u64,
    pub listing_differences: Differences,
    /// Of the fields, where they were asked for, once all is over.
    pub fields: Option<fields::Tally>,
    /// The same of the fans.
    pub fans: Option<fans::Tally>,
    /// And of what was taken out.
    pub removals: Option<removals::Tally>,
    /// The same of the sheets.
    pub sheets: Option<sheets::Tally>,
    /// And of texts in HEX.
    pub hex: Option<HexTally>,
    /// And of tables in pieces.
    pub receiving: Option<receiving::Tally>,
    /// And of tables side by side.
    pub pairs: Option<pairs::Tally>,
    /// And of traces run through tables.
    pub traces: Option<traces::Tally>,
    /// And of what was saved.
    pub salvage: Option<salvage::Tally>,
    /// By mode: how often each number came, both sides agreeing.
    answers: [Answers; 3],
}

impl Takes<Question> for Tally {
    fn take(&mut self, asked: &Question, expected: &Outcome, proved: &Outcome) {
        let (differences, shown): (_, fn(&[u8]) -> String) = match asked.call {
            Call::List => (&mut self.listing_differences, text),
            _ => (&mut self.differences, hex),
        };
        if proved != expected {
            differences.note(|| format!("{asked}: {}", proved.against(expected, shown)));
        } else if asked.call != Call::List {
            let answers = &mut self.answers[usize::from(asked.call.mode())];
            answers.add(Settings::of_number(asked.settings), proved.answer.number());
        }
        self.listings += u64::from(asked.call == Call::List);
    }

    fn differences(&self) -> u64 {
        self.all_differences()
    }
}

impl Tally {
    /// One line for each mode and each of the settings that was asked for: number and count of each answer.
    pub fn print_answers(&self) {
        for (name, answers) in NAMES.iter().zip(&self.answers) {
            answers.print(name);
        }
        if let Some(fields) = &self.fields {
            fields.print_answers();
        }
        if let Some(fans) = &self.fans {
            fans.print_answers();
        }
        if let Some(removals) = &self.removals {
            removals.print_answers();
        }
        if let Some(sheets) = &self.sheets {
            sheets.print_answers();
        }
        if let Some(hex) = &self.hex {
            hex.print_answers();
        }
        if let Some(receiving) = &self.receiving {
            receiving.print_answers();
        }
        if let Some(pairs) = &self.pairs {
            pairs.print_answers();
        }
        if let Some(traces) = &self.traces {
            traces.print_answers();
        }
        if let Some(salvage) = &self.salvage {
            salvage.print_answers();
        }
    }

    /// Prints the answers of this mode that should have come and did not, those to a whole table and these
    /// more; true when all came, with all settings.
    pub fn all_came(&self, mode: usize, more: &[u8]) -> bool {
        let mut all = true;
        for settings in Settings::ALL {
            let wanted = of_a_table(settings, more);
            all &= self.answers[mode].all_came(NAMES[mode], settings, &wanted);
        }
        all
    }

    pub fn all_differences(&self) -> u64 {
        let fields = self
            .fields
            .as_ref()
            .map_or(0, |fields| fields.differences.0);
        let fans = self.fans.as_ref().map_or(0, |fans| fans.differences.0);
        let removals = self.removals.as_ref().map_or(0, |them| them.differences.0);
        let sheets = self.sheets.as_ref().map_or(0, |them| them.differences.0);
        let hex = self.hex.as_ref().map_or(0, |hex| hex.differences.0);
        let receiving = self.receiving.as_ref().map_or(0, |them| them.differences.0);
        let pairs = self.pairs.as_ref().map_or(0, |them| them.differences.0);
        let traces = self.traces.as_ref().map_or(0, |them| them.differences.0);
        let salvage = self.salvage.as_ref().map_or(0, |them| them.differences.0);
        let asked_of_tables = fields + fans + removals + sheets + hex + receiving + pairs;
        let asked_of_tables = asked_of_tables + traces + salvage;
        self.differences.0 + self.listing_differences.0 + asked_of_tables
    }

    /// The last line, or the last ten.
    pub fn print_sum(&self) {
        println!("{} tables, {} differences", self.tables, self.differences.0);
        if self.listings > 0 {
            let differences = self.listing_differences.0;
            println!("{} listings, {differences} differences", self.listings);
        }
        if let Some(fields) = &self.fields {
            fields.print_sum();
        }
        if let Some(fans) = &self.fans {
            fans.print_sum();
        }
        if let Some(removals) = &self.removals {
            removals.print_sum();
        }
        if let Some(sheets) = &self.sheets {
            sheets.print_sum();
        }
        if let Some(hex) = &self.hex {
            hex.print_sum();
        }
        if let Some(receiving) = &self.receiving {
            receiving.print_sum();
        }
        if let Some(pairs) = &self.pairs {
            pairs.print_sum();
        }
        if let Some(traces) = &self.traces {
            traces.print_sum();
        }
        if let Some(salvage) = &self.salvage {
            salvage.print_sum();
        }
    }
}

/// The comparison can fail: whatever is altered in a listing is seen.
#[cfg(test)]
mod tests {
    use super::*;
    use crate::answer::Answer;
    use crate::question::Origin;
    use crate::settings::reading;
    use second::generator;
    use second::random::Random;

    fn counted(asked: &Question, proved: &Outcome) -> (u64, u64) {
        let mut tally = Tally {
            listing_differences: Differences::unshown(),
            ..Tally::default()
        };
        let second = asked.call.second(&asked.table, asked.settings);
        tally.take(asked, &second, proved);
        let differences = tally.all_differences() - Differences::unshown().0;
        (tally.listings, differences)
    }

    #[test]
    fn an_altered_length_or_byte_of_a_listing_is_reported() {
        let mut random = Random::new(3);
        for at in 0..300 {
            let made_for = Settings::ALL[at as usize % 4];
            let asked = Question {
                origin: Origin::Seeded { seed: 3, at },
                call: Call::List,
                settings: reading(made_for, at),
                table: generator::any(&mut random, made_for).into(),
            };
            let second = asked.call.second(&asked.table, asked.settings);
            assert_eq!(counted(&asked, &second), (1, 0));
            let mut longer = second.clone();
            longer.answer = Answer(second.answer.0 + 256);
            assert_eq!(counted(&asked, &longer), (1, 1));
            let mut behind = second.clone();
            behind.buffer.push(0);
            assert_eq!(counted(&asked, &behind), (1, 1));
            for at in (0..second.buffer.len()).step_by(1 + second.buffer.len() / 50) {
                let mut altered = second.clone();
                altered.buffer[at] ^= 1 << (at % 8);
                assert_eq!(counted(&asked, &altered), (1, 1));
            }
        }
    }
}
