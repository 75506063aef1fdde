//! What was received, what came back, and where the two sides differ.

use super::conversation::Conversation;
use super::step::Step;
use crate::answer::Answer;
use crate::answers::{of_a_table, Answers};
use crate::exchange::Takes;
use crate::outcome::Differences;
use second::Settings;

#[derive(Default)]
pub struct Tally {
    /// From a start to its end.
    pub receptions: u64,
    pub differences: Differences,
    /// Of pieces and reports, and of ends, the later ones too.
    pieces: Answers,
    ends: Answers,
}

/// What the driver says where the state has changed by a piece of no bytes, or by a call after the end.
const STATE_CHANGED: Answer = Answer(u64::MAX - 1);

impl Takes<Conversation> for Tally {
    fn take(&mut self, asked: &Conversation, expected: &Vec<Answer>, proved: &Vec<Answer>) {
        let settings = Settings::of_number(asked.settings);
        for (at, (proved, expected)) in proved.iter().zip(expected).enumerate() {
            if proved != expected {
                let said = match *proved {
                    STATE_CHANGED => "the proved side alters a state that is to be kept".into(),
                    other => {
                        format!("the proved side answers {other}, where {expected} is expected")
                    }
                };
                let steps = asked.up_to(at);
                let note = || format!("{asked}: {steps}: {said}");
                self.differences.note(note);
                continue;
            }
            match asked.steps[at] {
                Step::Start(_) => self.receptions += 1,
                Step::End | Step::Wild { .. } => self.ends.add(settings, proved.number()),
                _ => self.pieces.add(settings, proved.number()),
            }
        }
    }

    fn differences(&self) -> u64 {
        self.differences.0
    }
}

impl Tally {
    pub fn print_answers(&self) {
        self.pieces.print("pieces");
        self.ends.print("ends");
    }

    /// Prints the answers that should have come and did not; true when all came, with all settings.
    pub fn all_came(&self) -> bool {
        let mut all = true;
        for settings in Settings::ALL {
            all &= self.pieces.all_came("pieces", settings, &[0, 20]);
            let of_an_end = of_a_table(settings, &[20]);
            all &= self.ends.all_came("ends", settings, &of_an_end);
        }
        all
    }

    pub fn print_sum(&self) {
        let (receptions, differences) = (self.receptions, self.differences.0);
        println!("{receptions} receptions, {differences} differences");
    }
}

/// The comparison can fail: whatever one side alters in an answer is seen.
#[cfg(test)]
mod tests {
    use super::*;
    use crate::question::Origin;
    use crate::receiving::cuttings;
    use crate::settings::reading;
    use second::generator;
    use second::random::Random;

    fn differences(asked: &Conversation, proved: &Vec<Answer>) -> u64 {
        let mut tally = Tally {
            differences: Differences::unshown(),
            ..Tally::default()
        };
        tally.take(asked, &asked.second(), proved);
        tally.differences.0 - Differences::unshown().0
    }

    #[test]
    fn an_altered_answer_is_reported() {
        let mut random = Random::new(4);
        for at in 0..200 {
            let made_for = Settings::ALL[at as usize % 4];
            let table = generator::any(&mut random, made_for);
            let asked = Conversation {
                origin: Origin::Seeded { seed: 4, at },
                settings: reading(made_for, at),
                steps: cuttings::of_table(&table, &mut random),
                bytes: table.into(),
            };
            let second = asked.second();
            assert_eq!(differences(&asked, &second), 0);
            for step in (0..second.len()).step_by(1 + second.len() / 20) {
                for answer in [second[step].0 ^ 1, second[step].0 + 256, STATE_CHANGED.0] {
                    let mut altered = second.clone();
                    altered[step] = Answer(answer);
                    assert_eq!(differences(&asked, &altered), 1);
                }
            }
        }
    }
}
