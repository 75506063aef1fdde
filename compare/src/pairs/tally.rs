//! What was held side by side, what came back, and where the two sides differ.

use super::asking::Asking;
use crate::answers::{of_a_table, Answers};
use crate::exchange::Takes;
use crate::outcome::{text, Differences, Outcome};
use crate::question::Origin;
use crate::settings::of_writing;
use second::generator::altered;
use second::{Chip, Rules, Settings};
use std::collections::HashSet;

/// Of a text no more lines are looked at.
const LOOKED_AT: usize = 8;

/// Identifier of the first table's element, 0 for the description and for none; name of the field.
type Field = (u8, String);

#[derive(Default)]
pub struct Tally {
    pub asked: u64,
    pub differences: Differences,
    /// How often each number came, both sides agreeing: of the first table with 0, and of the second.
    of_one: Answers,
    of_two: Answers,
    /// The fields that lines told of on either chip; those of the papers' rows, which are asked on both, are not counted.
    fields: HashSet<Field>,
    /// By chip: the same bytes, other bytes without a line.
    equal: [[u64; 2]; 2],
}

impl Takes<Asking> for Tally {
    fn take(&mut self, asking: &Asking, expected: &Outcome, proved: &Outcome) {
        self.asked += 1;
        if proved != expected {
            self.differences
                .note(|| format!("{asking}: {}", proved.against(expected, text)));
            return;
        }
        let chip = of_writing(asking.settings);
        let answers = match proved.answer.0 >> 24 {
            2 => &mut self.of_two,
            _ => &mut self.of_one,
        };
        answers.add(by_archive(chip), proved.answer.number());
        if proved.answer.number() == 0 && !matches!(asking.origin, Origin::Known(_)) {
            self.agreed(asking, chip, &proved.buffer);
        }
    }

    fn differences(&self) -> u64 {
        self.differences.0
    }
}

fn by_archive(chip: Chip) -> Settings {
    Settings::new(chip, Rules::Archive)
}

impl Tally {
    fn agreed(&mut self, asking: &Asking, chip: Chip, text: &[u8]) {
        if text.is_empty() {
            self.equal[chip as usize][usize::from(asking.one != asking.two)] += 1;
        }
        for line in text.split(|&byte| byte == b'\n').take(LOOKED_AT) {
            let Ok(line) = std::str::from_utf8(line) else {
                continue;
            };
            let fields: Vec<&str> = line.split('\t').collect();
            if let [_, place, _, name, ..] = fields[..] {
                let kind = match place.parse() {
                    Ok(0) | Err(_) => 0,
                    Ok(place) => asking.one.get::<usize>(place).copied().unwrap_or(0),
                };
                let field = (kind, name.to_string());
                self.fields.insert(field);
            }
        }
    }

    pub fn print_answers(&self) {
        self.of_one.print("esa_diff, the first table");
        self.of_two.print("esa_diff, the second table");
        println!("esa_diff: lines of {} fields of kinds", self.fields.len());
        for chip in Chip::BOTH {
            let [same, other] = self.equal[chip as usize];
            let on = chip.digits();
            println!("esa_diff on the {on}: {same} times the same bytes, {other} times others without a line");
        }
    }

    /// Every refusal of the archive's reader for either table, no line for the same bytes and for others, on both chips; every field of
    /// every kind, and a line of kinds that begins with each kind and with none. Prints what never came.
    pub fn all_came(&self) -> bool {
        let mut all = self.fields_came();
        for chip in Chip::BOTH {
            let settings = by_archive(chip);
            let wanted = of_a_table(settings, &[]);
            let (one, two) = ("esa_diff, the first table", "esa_diff, the second table");
            all &= self.of_one.all_came(one, settings, &wanted);
            all &= self.of_two.all_came(two, settings, &wanted[1..]);
            if self.equal[chip as usize].contains(&0) {
                println!("esa_diff on the {settings}: equal tables never came");
                all = false;
            }
        }
        all
    }

    fn fields_came(&self) -> bool {
        let kinds = (0..=14).map(|kind| (kind, "kind".to_string()));
        let rows = altered().into_iter();
        let fields = rows.map(|row| (row.identifier, row.field.to_string()));
        let wanted = fields.chain(kinds);
        let missing: HashSet<Field> = wanted
            .filter(|field| !self.fields.contains(field))
            .collect();
        if !missing.is_empty() {
            println!("esa_diff: lines that never came: {missing:?}");
        }
        missing.is_empty()
    }

    /// The last line.
    pub fn print_sum(&self) {
        let (asked, differences) = (self.asked, self.differences.0);
        println!("{asked} pairs of tables, {differences} differences");
    }
}

/// The comparison can fail: whatever is altered in an answer or a byte is seen.
#[cfg(test)]
mod tests {
    use super::*;
    use crate::settings::writing;
    use second::generator::{any, beside};
    use second::random::Random;

    fn counted(asking: &Asking, proved: &Outcome) -> (u64, u64) {
        let mut tally = Tally {
            differences: Differences::unshown(),
            ..Tally::default()
        };
        tally.take(asking, &asking.second(), proved);
        (tally.asked, tally.differences.0 - Differences::unshown().0)
    }

    #[test]
    fn an_altered_answer_or_byte_is_reported() {
        let mut random = Random::new(3);
        for at in 0..200 {
            let chip = Chip::BOTH[at as usize % 2];
            let one = any(&mut random, by_archive(chip));
            let two = beside(&mut random, &one, by_archive(chip));
            let asking = Asking {
                origin: Origin::Seeded { seed: 3, at },
                settings: writing(chip, at),
                one: one.into(),
                two: two.into(),
            };
            let second = asking.second();
            assert_eq!(counted(&asking, &second), (1, 0));
            // The number, the place or length, the table, a bit far above.
            for bit in [0, 8, 24, 63] {
                let mut altered = second.clone();
                altered.answer.0 ^= 1 << bit;
                assert_eq!(counted(&asking, &altered), (1, 1));
            }
            let mut behind = second.clone();
            behind.buffer.push(0);
            assert_eq!(counted(&asking, &behind), (1, 1));
            for at in (0..second.buffer.len()).step_by(1 + second.buffer.len() / 50) {
                let mut altered = second.clone();
                altered.buffer[at] ^= 1 << (at % 8);
                assert_eq!(counted(&asking, &altered), (1, 1));
            }
        }
    }

    /// Needs no driver: the second program alone is held to the papers.
    #[test]
    fn the_second_program_gives_the_papers_answers() {
        for row in super::super::known::rows() {
            for chip in Chip::BOTH {
                let outcome = super::super::second(&row.one, &row.two, writing(chip, 7));
                assert_eq!(outcome, row.wanted, "{}", row.name);
            }
        }
    }
}
