//! What was run through tables, what came back, and where the two sides differ.

use super::asking::{Asking, What};
use super::step::Step;
use crate::answer::Answer;
use crate::answers::{of_a_table, Answers};
use crate::exchange::Takes;
use crate::outcome::{text, Differences, Outcome};
use crate::settings::of_writing;
use second::{Chip, Settings};

/// What a line of a trace can come to, and what a count alone can.
const LINES: [&str; 6] = ["reading", "under 0", "over 100", "17", "18", "19"];

#[derive(Default)]
pub struct Tally {
    /// Of steps and counts.
    pub asked: u64,
    pub differences: Differences,
    /// Of starts, and of counts, both sides agreeing.
    starts: Answers,
    counts: Answers,
    /// By chip and as [`LINES`]: of lines of traces, and of counts.
    lines: [[u64; 6]; 2],
    readings: [[u64; 6]; 2],
}

/// What the driver says where a state has changed that was to be kept, and where a byte behind the text has.
const STATE_CHANGED: Answer = Answer(u64::MAX - 1);
const OUT_CHANGED: Answer = Answer(u64::MAX - 2);

impl Takes<Asking> for Tally {
    fn take(&mut self, asked: &Asking, expected: &Vec<Outcome>, proved: &Vec<Outcome>) {
        for (at, (proved, expected)) in proved.iter().zip(expected).enumerate() {
            self.asked += 1;
            if proved != expected {
                let said = match proved.answer {
                    STATE_CHANGED => "the proved side alters a state that is to be kept".into(),
                    OUT_CHANGED => "the proved side alters bytes behind the text".into(),
                    _ => proved.against(expected, text),
                };
                let steps = asked.up_to(at);
                self.differences
                    .note(|| format!("{asked}: {steps}: {said}"));
                continue;
            }
            self.agreed(asked, at, proved);
        }
    }

    fn differences(&self) -> u64 {
        self.differences.0
    }
}

/// Which of [`LINES`] an output line is.
fn kind(line: &[u8]) -> Option<usize> {
    match line {
        b"" => None,
        b"under 0" => Some(1),
        b"over 100" => Some(2),
        [b'R', b'\t', b'1', digit @ b'7'..=b'9', b'\t', ..] => Some(usize::from(digit - b'4')),
        _ => Some(0),
    }
}

impl Tally {
    fn agreed(&mut self, asked: &Asking, at: usize, proved: &Outcome) {
        let chip = of_writing(asked.settings);
        let answer = proved.answer;
        match &asked.what {
            What::Counts(_) => {
                self.counts.add(chip.into(), answer.number());
                let kind = match answer.number() {
                    0 => Some((answer.0 >> 8 & 3) as usize),
                    number @ 17..=19 => Some(usize::from(number) - 14),
                    _ => None,
                };
                if let Some(kind) = kind {
                    self.readings[chip as usize][kind] += 1;
                }
            }
            What::Run { steps, .. } => match steps[at] {
                Step::Start(_) => self.starts.add(chip.into(), answer.number()),
                // Its last lines are tallies.
                Step::End | Step::Wild { .. } => (),
                _ => {
                    let lines = proved.buffer.split(|&byte| byte == b'\n');
                    for kind in lines.filter_map(kind) {
                        self.lines[chip as usize][kind] += 1;
                    }
                }
            },
        }
    }

    pub fn print_answers(&self) {
        self.starts.print("esa_trace_start");
        self.counts.print("esa_reading");
        for chip in Chip::BOTH {
            for (name, counts) in self.of(chip) {
                let counts = LINES.iter().zip(counts);
                let counts: Vec<String> = counts.map(|(line, n)| format!("{line}: {n}")).collect();
                println!("{name} on the {}: {}", chip.digits(), counts.join(", "));
            }
        }
    }

    fn of(&self, chip: Chip) -> [(&'static str, [u64; 6]); 2] {
        let at = chip as usize;
        [
            ("lines of traces", self.lines[at]),
            ("counts", self.readings[at]),
        ]
    }

    /// Every refusal of a table, and of lines and of counts everything that they can come to, on both chips. Prints what never came.
    pub fn all_came(&self) -> bool {
        let mut all = true;
        for chip in Chip::BOTH {
            let settings = Settings::from(chip);
            let of_a_start = of_a_table(settings, &[]);
            all &= self
                .starts
                .all_came("esa_trace_start", settings, &of_a_start);
            let of_a_count = of_a_table(settings, &[17, 18, 19]);
            all &= self.counts.all_came("esa_reading", settings, &of_a_count);
            for (name, counts) in self.of(chip) {
                for (line, _) in LINES.iter().zip(counts).filter(|(_, count)| *count == 0) {
                    println!("{name} on the {settings}: {line} never came");
                    all = false;
                }
            }
        }
        all
    }

    pub fn print_sum(&self) {
        let (asked, differences) = (self.asked, self.differences.0);
        println!("{asked} trace answers, {differences} differences");
    }
}

/// The comparison can fail: whatever is altered in an answer or a byte is seen.
#[cfg(test)]
mod tests {
    use super::super::{cuttings, known};
    use super::*;
    use crate::question::Origin;
    use crate::settings::writing;
    use second::generator;
    use second::random::Random;

    fn differences(asked: &Asking, proved: &Vec<Outcome>) -> u64 {
        let mut tally = Tally {
            differences: Differences::unshown(),
            ..Tally::default()
        };
        tally.take(asked, &asked.second(), proved);
        tally.differences.0 - Differences::unshown().0
    }

    #[test]
    fn an_altered_answer_or_byte_is_reported() {
        let mut random = Random::new(3);
        for at in 0..200 {
            let chip = Chip::BOTH[at as usize % 2];
            let table = generator::valid(&mut random, chip.into());
            let trace = generator::trace(&mut random, &table, 12);
            let asked = Asking {
                origin: Origin::Seeded { seed: 3, at },
                settings: writing(chip, at),
                table: table.into(),
                what: What::Run {
                    steps: cuttings::of_trace(&trace, &mut random),
                    trace: trace.into(),
                },
            };
            let second = asked.second();
            assert_eq!(differences(&asked, &second), 0);
            for step in 0..second.len() {
                for answer in [
                    second[step].answer.0 ^ 1,
                    second[step].answer.0 + 256,
                    STATE_CHANGED.0,
                ] {
                    let mut altered = second.clone();
                    altered[step].answer = Answer(answer);
                    assert_eq!(differences(&asked, &altered), 1);
                }
                let mut altered = second.clone();
                match altered[step].buffer.last_mut() {
                    Some(byte) => *byte ^= 1,
                    None => altered[step].buffer.push(0),
                }
                assert_eq!(differences(&asked, &altered), 1);
            }
        }
    }

    /// Needs no driver: the second program alone is held to the papers.
    #[test]
    fn the_second_program_gives_the_papers_answers() {
        for row in known::rows() {
            for chip in Chip::BOTH {
                assert_eq!(row.second(writing(chip, 7)), row.wanted(), "{}", row.name);
            }
        }
    }
}
