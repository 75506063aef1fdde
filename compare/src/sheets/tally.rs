//! What was asked of sheets, what came back, and where the two sides differ.

use super::asking::Asking;
use super::call::Does;
use crate::answers::{of_a_table, Answers};
use crate::exchange::{Asked, Takes};
use crate::outcome::{hex, text, Differences, Outcome};
use crate::settings::of_writing;
use second::{Chip, Settings};

#[derive(Default)]
pub struct Tally {
    pub asked: u64,
    pub differences: Differences,
    /// How often each number came, both sides agreeing.
    afresh: Answers,
    forward: Answers,
    texts: u64,
    /// Appends to an accepted table that left it accepted, and that left it refused, by chip.
    accepted: [u64; 2],
    refused: [u64; 2],
}

impl Takes<Asking> for Tally {
    fn take(&mut self, asking: &Asking, expected: &Vec<Outcome>, proved: &Vec<Outcome>) {
        let chip = of_writing(asking.settings);
        for (at, (expected, proved)) in expected.iter().zip(proved).enumerate() {
            self.asked += 1;
            let does = asking.calls[at].does;
            let shown: fn(&[u8]) -> String = match does {
                Does::Text => text,
                _ => hex,
            };
            if proved != expected {
                self.differences.note(|| {
                    let one = &asking.one_by_one()[at];
                    format!("{one}: {}", proved.against(expected, shown))
                });
                continue;
            }
            let number = proved.answer.number();
            match does {
                Does::Afresh => self.afresh.add(chip.into(), number),
                Does::Forward => self.forward.add(chip.into(), number),
                Does::Text => self.texts += 1,
            }
        }
    }

    fn differences(&self) -> u64 {
        self.differences.0
    }
}

impl Tally {
    /// An append to an accepted table.
    pub fn stepped(&mut self, chip: Chip, accepted: bool) {
        let counts = match accepted {
            true => &mut self.accepted,
            false => &mut self.refused,
        };
        counts[chip as usize] += 1;
    }

    pub fn print_answers(&self) {
        self.afresh.print("esa_sheet");
        self.forward.print("esa_sheet_forward");
        for chip in Chip::BOTH {
            let (accepted, refused) = (self.accepted[chip as usize], self.refused[chip as usize]);
            let digits = chip.digits();
            println!("appends to an accepted table on the {digits}: {accepted} leave it accepted, {refused} refused");
        }
        println!("texts of sheets: {}", self.texts);
    }

    /// Every answer to a whole table of both calls, and appends of either sort, on each chip; prints those that never came.
    pub fn all_came(&self) -> bool {
        let mut all = true;
        for chip in Chip::BOTH {
            let settings = Settings::from(chip);
            let wanted = of_a_table(settings, &[]);
            all &= self.afresh.all_came("esa_sheet", settings, &wanted);
            all &= self
                .forward
                .all_came("esa_sheet_forward", settings, &wanted);
            if self.accepted[chip as usize] == 0 || self.refused[chip as usize] == 0 {
                println!("no append to an accepted table left it accepted, or none refused, on the {settings}");
                all = false;
            }
        }
        all && self.texts > 0
    }

    /// The last line.
    pub fn print_sum(&self) {
        let (asked, differences) = (self.asked, self.differences.0);
        println!("{asked} sheet answers, {differences} differences");
    }
}

/// The comparison can fail: whatever is altered in an answer, a sheet or a text is seen.
#[cfg(test)]
mod tests {
    use super::*;
    use crate::answer::Answer;
    use crate::question::Origin;
    use crate::settings::reading;
    use crate::sheets::{any_sheet, SheetCall};
    use second::generator;
    use second::random::Random;
    use std::rc::Rc;

    fn counted(asking: &Asking, proved: &Vec<Outcome>) -> (u64, u64) {
        let mut tally = Tally {
            differences: Differences::unshown(),
            ..Tally::default()
        };
        tally.take(asking, &asking.second(), proved);
        let differences = tally.differences.0 - Differences::unshown().0;
        (tally.asked, differences)
    }

    #[test]
    fn an_altered_answer_or_byte_is_reported() {
        let mut random = Random::new(3);
        for at in 0..24 {
            let made_for = Settings::ALL[at as usize % 4];
            let table: Rc<[u8]> = generator::any(&mut random, made_for).into();
            let calls = [Does::Afresh, Does::Forward, Does::Text].map(|does| SheetCall {
                does,
                sheet: any_sheet(&mut random),
            });
            let asking = Asking {
                origin: Origin::Seeded { seed: 3, at },
                settings: reading(made_for, at),
                table,
                calls: calls.to_vec(),
            };
            let second = asking.second();
            assert_eq!(counted(&asking, &second), (3, 0));
            for call in 0..3 {
                for bit in [0, 3, 8, 9, 20, 63] {
                    let mut altered = second.clone();
                    altered[call].answer = Answer(second[call].answer.0 ^ 1 << bit);
                    assert_eq!(counted(&asking, &altered), (3, 1));
                }
                for byte in 0..second[call].buffer.len() {
                    let mut altered = second.clone();
                    altered[call].buffer[byte] ^= 1 << (byte % 8);
                    assert_eq!(counted(&asking, &altered), (3, 1));
                }
            }
        }
    }
}
