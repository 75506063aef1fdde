//! What was read, what came back, and where the two sides differ.

use super::batch::{Batch, Replies};
use super::reading::Reading;
use crate::answers::{of_a_table, Answers};
use crate::exchange::Takes;
use crate::outcome::{hex, Differences};
use second::Settings;

#[derive(Default)]
pub struct Tally {
    /// Answers, each with its numbers.
    pub answers: u64,
    pub differences: Differences,
    /// By call: how often each number came, both sides agreeing.
    by_call: [Answers; 11],
}

impl Takes<Batch> for Tally {
    fn take(&mut self, batch: &Batch, expected: &Replies, proved: &Replies) {
        let both = batch.pieces(expected).zip(batch.pieces(proved));
        for ((reading, expected), (_, proved)) in both {
            self.answers += 1;
            if proved == expected {
                let answers = &mut self.by_call[usize::from(reading.which())];
                let settings = Settings::of_number(batch.settings);
                answers.add(settings, proved.answer().number());
                continue;
            }
            self.differences.note(|| {
                let (origin, settings, bytes) = (batch.origin, batch.settings, hex(&batch.bytes));
                let sides = proved.outcome().against(&expected.outcome(), hex);
                format!("{origin}: {reading}, settings {settings:X}h: {bytes}: {sides}")
            });
        }
    }

    fn differences(&self) -> u64 {
        self.differences.0
    }
}

impl Tally {
    pub fn print_answers(&self) {
        for (name, answers) in Reading::NAMES.iter().zip(&self.by_call) {
            answers.print(name);
        }
    }

    /// Every answer that the calls have, at least once with each of the settings; prints those that never came.
    /// Parts know no settings and count with the first.
    pub fn all_came(&self) -> bool {
        let came = |call: usize, settings: Settings, wanted: &[u8]| {
            self.by_call[call].all_came(Reading::NAMES[call], settings, wanted)
        };
        let mut all = true;
        for settings in Settings::ALL {
            all &= came(0, settings, &of_a_table(settings, &[]));
            for call in [1, 2, 3, 10] {
                all &= came(call, settings, &of_a_table(settings, &[17]));
            }
        }
        for call in 4..=9 {
            all &= came(call, Settings::default(), &[0, 17]);
        }
        all
    }

    /// The last line.
    pub fn print_sum(&self) {
        let (answers, differences) = (self.answers, self.differences.0);
        println!("{answers} field answers, {differences} differences");
    }
}

/// The comparison can fail: whatever is altered in a reply is seen.
#[cfg(test)]
mod tests {
    use super::*;
    use crate::fields::{batches, parts};
    use crate::question::Origin;
    use crate::settings::reading;
    use second::generator;
    use second::random::Random;

    fn counted(batch: &Batch, proved: &Replies) -> (u64, u64) {
        let mut tally = Tally {
            differences: Differences::unshown(),
            ..Tally::default()
        };
        tally.take(batch, &batch.second(), proved);
        let differences = tally.differences.0 - Differences::unshown().0;
        (tally.answers, differences)
    }

    #[test]
    fn an_altered_answer_or_number_is_reported() {
        let mut random = Random::new(3);
        for at in 0..100 {
            let origin = Origin::Seeded { seed: 3, at };
            let made_for = Settings::ALL[at as usize % 4];
            let table = generator::any(&mut random, made_for).into();
            let part = parts::some(None, &mut random);
            let mut all = batches(origin, reading(made_for, at), &table, true);
            all.push(Batch {
                origin,
                settings: 0,
                readings: parts::all_readings(&part),
                bytes: part.into(),
            });
            for batch in all {
                let asked = batch.readings.len() as u64;
                let second = batch.second();
                assert_eq!(counted(&batch, &second), (asked, 0));
                for at in (0..second.0.len()).step_by(1 + second.0.len() / 50) {
                    let mut altered = Replies(second.0.clone());
                    altered.0[at] ^= 1 << (at % 8);
                    assert_eq!(counted(&batch, &altered), (asked, 1));
                }
            }
        }
    }
}
