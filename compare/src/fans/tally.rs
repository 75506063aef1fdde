//! What was asked of fans, what came back, and where the two sides differ.

use super::asking::Asking;
use crate::answer::Answer;
use crate::answers::{of_a_table, Answers};
use crate::exchange::{Asked, Takes};
use crate::outcome::Differences;
use second::Settings;

#[derive(Default)]
pub struct Tally {
    pub asked: u64,
    pub differences: Differences,
    /// How often each number came, both sides agreeing; and beside 0 'no' and 'yes', by settings.
    answers: Answers,
    found: [[u64; 2]; 4],
}

impl Takes<Asking> for Tally {
    fn take(&mut self, asking: &Asking, expected: &Vec<Answer>, proved: &Vec<Answer>) {
        let settings = Settings::of_number(asking.settings);
        for (at, (&expected, &proved)) in expected.iter().zip(proved).enumerate() {
            self.asked += 1;
            if proved == expected {
                self.agreed(settings, proved);
                continue;
            }
            self.differences.note(|| {
                let one = &asking.one_by_one()[at];
                format!("{one}: the proved side answers {proved}, where {expected} is expected")
            });
        }
    }

    fn differences(&self) -> u64 {
        self.differences.0
    }
}

impl Tally {
    fn agreed(&mut self, settings: Settings, answer: Answer) {
        self.answers.add(settings, answer.number());
        if answer.number() == 0 {
            let yes = (answer.0 >> 8) % 2;
            self.found[settings.number() as usize][yes as usize] += 1;
        }
    }

    pub fn print_answers(&self) {
        self.answers.print("esa_fan");
        for (settings, [no, yes]) in Settings::ALL.into_iter().zip(self.found) {
            println!("fans of a zone on the {settings}: yes: {yes}, no: {no}");
        }
    }

    /// Every answer to a whole table, and beside 0 both, with each of the settings; prints those that never came.
    pub fn all_came(&self) -> bool {
        let mut all = true;
        for (settings, [no, yes]) in Settings::ALL.into_iter().zip(self.found) {
            let wanted = of_a_table(settings, &[]);
            all &= self.answers.all_came("esa_fan", settings, &wanted);
            if no == 0 || yes == 0 {
                println!("fans of a zone on the {settings}: 'yes' or 'no' never came");
                all = false;
            }
        }
        all
    }

    /// The last line.
    pub fn print_sum(&self) {
        let (asked, differences) = (self.asked, self.differences.0);
        println!("{asked} fan answers, {differences} differences");
    }
}

/// The comparison can fail: whatever is altered in an answer is seen.
#[cfg(test)]
mod tests {
    use super::*;
    use crate::fans::zones;
    use crate::question::Origin;
    use crate::settings::reading;
    use second::generator;
    use second::random::Random;
    use std::rc::Rc;

    fn counted(asking: &Asking, proved: &Vec<Answer>) -> (u64, u64) {
        let mut tally = Tally {
            differences: Differences::unshown(),
            ..Tally::default()
        };
        tally.take(asking, &asking.second(), proved);
        let differences = tally.differences.0 - Differences::unshown().0;
        (tally.asked, differences)
    }

    #[test]
    fn an_altered_answer_is_reported() {
        let mut random = Random::new(3);
        for at in 0..300 {
            let made_for = Settings::ALL[at as usize % 4];
            let table: Rc<[u8]> = generator::any(&mut random, made_for).into();
            let settings = reading(made_for, at);
            let asking = Asking {
                origin: Origin::Seeded { seed: 3, at },
                settings,
                zones: zones(&table, settings),
                table,
            };
            let second = asking.second();
            let asked = second.len() as u64;
            assert_eq!(counted(&asking, &second), (asked, 0));
            for at in 0..second.len() {
                // The number, 'yes' for 'no', one visit more, a bit far above.
                for bit in [0, 8, 9, 63] {
                    let mut altered = second.clone();
                    altered[at].0 ^= 1 << bit;
                    assert_eq!(counted(&asking, &altered), (asked, 1));
                }
            }
        }
    }
}
