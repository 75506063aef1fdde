//! What was asked of the writer, what came back, and where the two sides differ.

use super::call::{Does, WriterCall};
use crate::answers::{of_a_table, Answers};
use crate::exchange::Takes;
use crate::outcome::{hex, Differences, Outcome};
use crate::settings::of_writing;
use second::{Chip, Settings};

#[derive(Default)]
pub struct Tally {
    pub calls: u64,
    pub differences: Differences,
    pub starts: Answers,
    pub appends: Answers,
    pub rewritings: Answers,
}

impl Takes<WriterCall> for Tally {
    fn take(&mut self, call: &WriterCall, expected: &Outcome, proved: &Outcome) {
        let at = self.calls;
        self.calls += 1;
        if proved != expected {
            let sides = || proved.against(expected, hex);
            self.differences
                .note(|| format!("writer call {at}: {call}: {}", sides()));
            return;
        }
        let answers = match call.does {
            Does::Start => &mut self.starts,
            Does::Append(_) => &mut self.appends,
            Does::Rewrite => &mut self.rewritings,
        };
        let chip = of_writing(call.settings);
        answers.add(chip.into(), proved.answer.number());
    }

    fn differences(&self) -> u64 {
        self.differences.0
    }
}

impl Tally {
    pub fn print_answers(&self) {
        for (name, answers) in [
            ("start", &self.starts),
            ("append", &self.appends),
            ("rewrite", &self.rewritings),
        ] {
            answers.print(name);
        }
    }

    /// Prints the answers of the three calls that should have come and did not; true when all came, on both
    /// chips.
    pub fn all_came(&self) -> bool {
        let mut all = true;
        for settings in Chip::BOTH.map(Settings::from) {
            let of_start = [0, 1, 4, 5, 10, 25];
            all &= self.starts.all_came("start", settings, &of_start);
            let of_append = [0, 1, 3, 7, 8, 9, 10, 16, 23, 25];
            all &= self.appends.all_came("append", settings, &of_append);
            let of_rewrite = of_a_table(settings, &[16]);
            all &= self.rewritings.all_came("rewrite", settings, &of_rewrite);
        }
        all
    }

    /// The last line.
    pub fn print_sum(&self) {
        println!(
            "{} writer calls, {} differences",
            self.calls, self.differences.0
        );
    }
}

/// The comparison can fail: whatever one side alters is seen.
#[cfg(test)]
mod tests {
    use super::*;
    use crate::answer::Answer;
    use crate::writer::stream::Stream;

    fn counted(call: &WriterCall, proved: &Outcome) -> (u64, u64) {
        let mut tally = Tally {
            differences: Differences::unshown(),
            ..Tally::default()
        };
        tally.take(call, &call.second(), proved);
        (tally.calls, tally.differences.0 - Differences::unshown().0)
    }

    #[test]
    fn an_altered_answer_or_byte_is_reported() {
        for call in Stream::new(3).take(300) {
            let second = call.second();
            assert_eq!(counted(&call, &second), (1, 0));
            for bit in 0..64 {
                let mut altered = second.clone();
                altered.answer = Answer(second.answer.0 ^ 1 << bit);
                assert_eq!(counted(&call, &altered), (1, 1));
            }
            for at in (0..second.buffer.len()).step_by(1 + second.buffer.len() / 50) {
                let mut altered = second.clone();
                altered.buffer[at] ^= 1 << (at % 8);
                assert_eq!(counted(&call, &altered), (1, 1));
            }
        }
    }
}
