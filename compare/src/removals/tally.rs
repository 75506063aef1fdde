//! What was to be taken out, what came back, and where the two sides differ.

use super::asking::Asking;
use crate::answers::{of_a_table, Answers};
use crate::exchange::{Asked, Takes};
use crate::outcome::{hex, Differences, Outcome};
use crate::settings::of_writing;
use second::answer::number;
use second::element::id;
use second::{access, Chip, Settings};

/// How often an element of each identifier went, or was still named.
type ByKind = [u64; 15];

#[derive(Default)]
pub struct Tally {
    pub asked: u64,
    pub differences: Differences,
    /// How often each number came, both sides agreeing; and beside 0 and 22 of which kinds, by chip.
    answers: Answers,
    gone: [ByKind; 2],
    named: [ByKind; 2],
}

impl Takes<Asking> for Tally {
    fn take(&mut self, asking: &Asking, expected: &Vec<Outcome>, proved: &Vec<Outcome>) {
        for (at, (expected, proved)) in expected.iter().zip(proved).enumerate() {
            self.asked += 1;
            if proved == expected {
                self.agreed(asking, asking.elements[at], proved.answer.number());
                continue;
            }
            self.differences.note(|| {
                let one = &asking.one_by_one()[at];
                format!("{one}: {}", proved.against(expected, hex))
            });
        }
    }

    fn differences(&self) -> u64 {
        self.differences.0
    }
}

impl Tally {
    fn agreed(&mut self, asking: &Asking, k: u64, answer: u8) {
        let chip = of_writing(asking.settings);
        self.answers.add(chip.into(), answer);
        let kinds = match answer {
            0 => &mut self.gone[chip as usize],
            number::STILL_NAMED => &mut self.named[chip as usize],
            _ => return,
        };
        if let Some((_, element)) = access::walk(&asking.table).nth(k as usize) {
            kinds[usize::from(element[0])] += 1;
        }
    }

    pub fn print_answers(&self) {
        self.answers.print("esa_remove");
    }

    /// Every answer to a whole table, 17 and 22; and an element of every kind gone, a zone and a string still named;
    /// on both chips. Prints what never came.
    pub fn all_came(&self) -> bool {
        let mut all = true;
        for chip in Chip::BOTH {
            let settings = Settings::from(chip);
            let wanted = of_a_table(settings, &[number::PAST_LAST, number::STILL_NAMED]);
            all &= self.answers.all_came("esa_remove", settings, &wanted);
            let (gone, named) = (&self.gone[chip as usize], &self.named[chip as usize]);
            let lacks = |kinds: &ByKind, id: u8| kinds[usize::from(id)] == 0;
            let none_gone = id::ALL.into_iter().filter(|&id| lacks(gone, id));
            let none_named = [id::ZONE, id::TEXT]
                .into_iter()
                .filter(|&id| lacks(named, id));
            for id in none_gone.chain(none_named) {
                println!("taken out or still named on the {settings}: {id:02X}h never came");
                all = false;
            }
        }
        all
    }

    /// The last line.
    pub fn print_sum(&self) {
        let (asked, differences) = (self.asked, self.differences.0);
        println!("{asked} removals, {differences} differences");
    }
}

/// The comparison can fail: whatever is altered in an answer or a byte is seen.
#[cfg(test)]
mod tests {
    use super::*;
    use crate::question::Origin;
    use crate::removals::elements;
    use crate::settings::writing;
    use second::generator;
    use second::random::Random;
    use std::rc::Rc;

    fn counted(asking: &Asking, proved: &Vec<Outcome>) -> (u64, u64) {
        let mut tally = Tally {
            differences: Differences::unshown(),
            ..Tally::default()
        };
        tally.take(asking, &asking.second(), proved);
        let differences = tally.differences.0 - Differences::unshown().0;
        (tally.asked, differences)
    }

    #[test]
    fn an_altered_answer_or_byte_is_reported() {
        let mut random = Random::new(3);
        for at in 0..100 {
            let chip = Chip::BOTH[at as usize % 2];
            let table: Rc<[u8]> = generator::any(&mut random, chip.into()).into();
            let settings = writing(chip, at);
            let mut asking = Asking {
                origin: Origin::Seeded { seed: 3, at },
                settings,
                elements: elements(&table, at, settings),
                table,
            };
            let asked = asking.elements.len() as u64;
            assert_eq!(counted(&asking, &asking.second()), (asked, 0));
            asking.elements.truncate(3);
            let second = asking.second();
            for k in 0..second.len() {
                // The number, the place or length, a bit far above.
                for bit in [0, 8, 63] {
                    let mut altered = second.clone();
                    altered[k].answer.0 ^= 1 << bit;
                    assert_eq!(counted(&asking, &altered).1, 1);
                }
                let length = asking.table.len();
                for at in (0..length)
                    .step_by(1 + length / 20)
                    .chain(length.checked_sub(1))
                {
                    let mut altered = second.clone();
                    altered[k].buffer[at] ^= 1 << (at % 8);
                    assert_eq!(counted(&asking, &altered).1, 1);
                }
            }
        }
    }

    /// Needs no driver: the second program alone is held to the papers.
    #[test]
    fn the_second_program_gives_the_papers_answers() {
        for row in super::super::known::rows() {
            for chip in Chip::BOTH {
                let outcome = super::super::second(&row.table, row.k, writing(chip, 7));
                assert_eq!(outcome, row.wanted, "{}: {}", row.name, row.k);
            }
        }
    }
}
