//! What was moved, what came back, and where the two sides differ.

use super::moving::{Moving, Way};
use crate::answers::{of_a_table, Answers};
use crate::exchange::Takes;
use crate::outcome::{hex, text, Differences, Outcome};
use crate::settings::of_writing;
use second::{Chip, Rules, Settings};

#[derive(Default)]
pub struct Tally {
    pub moved: u64,
    pub differences: Differences,
    there: Answers,
    back: Answers,
}

/// Counted by chip: the rules are the archive's.
fn archive(chip: Chip) -> Settings {
    Settings::new(chip, Rules::Archive)
}

impl Takes<Moving> for Tally {
    fn take(&mut self, moving: &Moving, expected: &Outcome, proved: &Outcome) {
        self.moved += 1;
        let (answers, shown): (_, fn(&[u8]) -> String) = match moving.way {
            Way::There => (&mut self.there, text),
            Way::Back => (&mut self.back, hex),
        };
        if proved != expected {
            let sides = || proved.against(expected, shown);
            self.differences.note(|| format!("{moving}: {}", sides()));
            return;
        }
        let settings = archive(of_writing(moving.settings));
        answers.add(settings, proved.answer.number());
    }

    fn differences(&self) -> u64 {
        self.differences.0
    }
}

impl Tally {
    pub fn print_answers(&self) {
        self.there.print("esa_hex");
        self.back.print("esa_unhex");
    }

    /// Every refusal of a table and 16 both ways, and coming back 21, on both chips; prints those that never came.
    pub fn all_came(&self) -> bool {
        let mut all = true;
        for settings in Chip::BOTH.map(archive) {
            let there = of_a_table(settings, &[16]);
            all &= self.there.all_came("esa_hex", settings, &there);
            let back = of_a_table(settings, &[16, 21]);
            all &= self.back.all_came("esa_unhex", settings, &back);
        }
        all
    }

    /// The last line.
    pub fn print_sum(&self) {
        let (moved, differences) = (self.moved, self.differences.0);
        println!("{moved} HEX answers, {differences} differences");
    }
}

/// The comparison can fail: whatever one side alters is seen.
#[cfg(test)]
mod tests {
    use super::*;
    use crate::answer::Answer;
    use crate::question::Origin;
    use crate::settings::writing;
    use second::generator::{any, hex_text};
    use second::random::Random;

    fn counted(moving: &Moving, proved: &Outcome) -> (u64, u64) {
        let mut tally = Tally {
            differences: Differences::unshown(),
            ..Tally::default()
        };
        tally.take(moving, &moving.second(), proved);
        (tally.moved, tally.differences.0 - Differences::unshown().0)
    }

    fn every_alteration_is_reported(moving: &Moving) {
        let second = moving.second();
        assert_eq!(counted(moving, &second), (1, 0));
        for bit in 0..64 {
            let mut altered = second.clone();
            altered.answer = Answer(second.answer.0 ^ 1 << bit);
            assert_eq!(counted(moving, &altered), (1, 1));
        }
        for at in (0..second.buffer.len()).step_by(1 + second.buffer.len() / 50) {
            let mut altered = second.clone();
            altered.buffer[at] ^= 1 << (at % 8);
            assert_eq!(counted(moving, &altered), (1, 1));
        }
    }

    #[test]
    fn an_altered_answer_or_byte_is_reported() {
        let mut random = Random::new(3);
        for at in 0..300 {
            let made_for = Settings::ALL[at as usize % 4];
            let table = any(&mut random, made_for);
            let text = hex_text(&mut random, &table);
            for (way, lent) in [(Way::There, table), (Way::Back, text)] {
                every_alteration_is_reported(&Moving {
                    origin: Origin::Seeded { seed: 3, at },
                    way,
                    settings: writing(made_for.chip, at),
                    room: 3 * lent.len(),
                    lent: lent.into(),
                });
            }
        }
    }
}
