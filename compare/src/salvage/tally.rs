//! What was to be saved, what came back, and where the two sides differ.

use super::asking::{saved, Asking, Reply};
use crate::answers::Answers;
use crate::exchange::Takes;
use crate::outcome::Differences;
use crate::settings::of_writing;
use second::answer::{number, LARGEST_TABLE};
use second::histogram::Histogram;
use second::salvage::Change;
use second::{Chip, Settings};

/// What came on one chip, both sides agreeing.
#[derive(Default)]
struct Came {
    /// By the number on the line.
    left_out: Histogram,
    cleared: Histogram,
    /// By the number that the description alone has.
    lost: Histogram,
    /// More bytes than are looked at, of which something is saved.
    longer: u64,
}

#[derive(Default)]
pub struct Tally {
    pub asked: u64,
    pub differences: Differences,
    answers: Answers,
    came: [Came; 2],
}

/// The numbers that a line of an element left out can have, that a cleared one has, and the grounds of 24.
const LEFT_OUT: [u8; 9] = [
    number::IDENTIFIER,
    number::LAYOUT,
    number::CODE,
    number::RETIRED,
    number::PIN,
    number::TOO_MANY,
    number::TWICE,
    number::NO_ZONE,
    number::CLASH,
];
const CLEARED: [u8; 1] = [number::NO_STRING];
const LOST: [u8; 6] = [
    number::SHORT,
    number::REVISION,
    number::DEVICE_TYPE,
    number::POWER,
    number::PIN,
    number::CLASH,
];

impl Takes<Asking> for Tally {
    fn take(&mut self, asking: &Asking, expected: &Reply, proved: &Reply) {
        self.asked += 1;
        if proved != expected {
            self.differences.note(|| {
                format!("{asking}: the proved side answers {proved}, where {expected} is expected")
            });
        } else if !proved.keeps_its_word() {
            self.differences
                .note(|| format!("{asking}: what is saved is refused or not as it is: {proved}"));
        } else {
            self.agreed(asking, proved);
        }
    }

    fn differences(&self) -> u64 {
        self.differences.0
    }
}

/// What the reader says of the description when its length is set and its string index cleared.
fn ground(file: &[u8], chip: Chip) -> u8 {
    let mut head = file[..file.len().min(16)].to_vec();
    if head.len() == 16 {
        head[1..3].copy_from_slice(&[16, 0]);
        head[4] = 0;
    }
    second::check(&head, chip.into()).number()
}

impl Came {
    fn line(&mut self, line: &str) {
        let mut fields = line.split('\t').skip(1);
        let number = fields.next().and_then(|field| field.parse().ok());
        let (Some(number), Some(words)) = (number, fields.next()) else {
            return;
        };
        if words == Change::LeftOut.words() {
            self.left_out.add(number);
        } else if words == Change::Cleared.words() {
            self.cleared.add(number);
        }
    }

    /// Prints those of these that never came.
    fn all(&self, chip: Chip) -> bool {
        let mut all = self.longer > 0;
        if !all {
            println!(
                "nothing was saved of a longer file on the {}",
                chip.digits()
            );
        }
        for (name, came, wanted) in [
            ("left out", &self.left_out, &LEFT_OUT[..]),
            ("cleared", &self.cleared, &CLEARED),
            ("24 where the description alone has", &self.lost, &LOST),
        ] {
            for number in wanted.iter().filter(|&&number| came.of(number) == 0) {
                println!("{name} {number} never came on the {}", chip.digits());
                all = false;
            }
        }
        all
    }
}

impl Tally {
    fn agreed(&mut self, asking: &Asking, proved: &Reply) {
        let chip = of_writing(asking.settings);
        self.answers.add(chip.into(), proved.answer.number());
        let came = &mut self.came[chip as usize];
        match proved.answer.number() {
            0 => {
                let text = String::from_utf8_lossy(&proved.lines);
                text.lines().for_each(|line| came.line(line));
                let more = saved(proved.answer).is_some_and(|length| length > 16);
                came.longer += u64::from(more && asking.file.len() > LARGEST_TABLE);
            }
            number::NO_DESCRIPTION => came.lost.add(ground(&asking.file, chip)),
            _ => (),
        }
    }

    pub fn print_answers(&self) {
        self.answers.print("esa_salvage");
    }

    /// 0, 16 and 24 for each of its grounds, every number on a line and both words, and something saved of a file over 4,096
    /// bytes, on both chips; prints what never came.
    pub fn all_came(&self) -> bool {
        let wanted = [0, number::NO_ROOM, number::NO_DESCRIPTION];
        let mut all = true;
        for chip in Chip::BOTH {
            let settings = Settings::from(chip);
            all &= self.answers.all_came("esa_salvage", settings, &wanted);
            all &= self.came[chip as usize].all(chip);
        }
        all
    }

    /// The last line.
    pub fn print_sum(&self) {
        let (asked, differences) = (self.asked, self.differences.0);
        println!("{asked} salvages, {differences} differences");
    }
}

/// The comparison can fail: whatever is altered in an answer or a byte is seen.
#[cfg(test)]
mod tests {
    use super::*;
    use crate::answer::Answer;
    use crate::question::Origin;
    use crate::settings::writing;
    use second::generator::{any, wrecked};
    use second::random::Random;

    fn counted(asking: &Asking, proved: &Reply) -> (u64, u64) {
        let mut tally = Tally {
            differences: Differences::unshown(),
            ..Tally::default()
        };
        tally.take(asking, &asking.second(), proved);
        (tally.asked, tally.differences.0 - Differences::unshown().0)
    }

    /// Where they stand, some places of so many bytes, the last among them.
    fn some(length: usize) -> impl Iterator<Item = usize> {
        let all = (0..length).step_by(1 + length / 20);
        all.chain(length.checked_sub(1))
    }

    fn every_alteration_is_reported(asking: &Asking) {
        let second = asking.second();
        assert_eq!(counted(asking, &second), (1, 0));
        let reported = |alter: &dyn Fn(&mut Reply)| {
            let mut altered = second.clone();
            alter(&mut altered);
            assert_eq!(counted(asking, &altered), (1, 1));
        };
        for bit in [0, 4, 8, 24, 63] {
            reported(&|reply| reply.answer.0 ^= 1 << bit);
            reported(&|reply| reply.checked.0 ^= 1 << bit);
            reported(&|reply| reply.again.0 ^= 1 << bit);
        }
        for at in some(second.out.len()) {
            reported(&|reply| reply.out[at] ^= 1 << (at % 8));
        }
        for at in some(second.lines.len()) {
            reported(&|reply| reply.lines[at] ^= 1 << (at % 8));
        }
        reported(&|reply| reply.lines.push(0));
    }

    #[test]
    fn an_altered_answer_or_byte_is_reported() {
        let mut random = Random::new(3);
        for at in 0..200 {
            let chip = Chip::BOTH[at as usize % 2];
            let file = match at % 4 {
                0..=1 => any(&mut random, chip.into()),
                _ => wrecked(&mut random, chip.into()),
            };
            every_alteration_is_reported(&Asking {
                origin: Origin::Seeded { seed: 3, at },
                settings: writing(chip, at),
                room: [file.len(), 20][at as usize % 5 / 4],
                file: file.into(),
            });
        }
    }

    /// Both sides alike, and both wrong: a table that is refused, or that does not stay as it is.
    #[test]
    fn what_is_saved_must_be_a_table() {
        let asking = Asking {
            origin: Origin::Known("A"),
            settings: 0,
            room: 16,
            file: second::generator::raw::TABLE_A.into(),
        };
        let good = asking.second();
        let mut refused = good.clone();
        refused.checked = Answer::of(14, 0);
        let mut other = good.clone();
        other.again = Answer::of(0, 16 + (1 << 16));
        for (reply, differences) in [(good, 0), (refused, 1), (other, 1)] {
            let mut tally = Tally::default();
            tally.differences = Differences::unshown();
            tally.take(&asking, &reply, &reply);
            assert_eq!(tally.differences.0 - Differences::unshown().0, differences);
        }
    }

    /// Needs no driver: the second program alone is held to the papers.
    #[test]
    fn the_second_program_gives_the_papers_answers() {
        for row in super::super::known::rows() {
            for chip in Chip::BOTH {
                let reply = super::super::second(&row.file, writing(chip, 7), row.room);
                assert_eq!(reply, row.wanted, "{}", row.name);
            }
        }
    }
}
