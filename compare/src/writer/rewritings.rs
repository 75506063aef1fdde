//! Tables of any sort, written again into buffers of junk: one byte short, just long enough, longer.

use super::call::WriterCall;
use crate::settings::writing;
use second::generator::{any, only_in_the_archive, only_on_the_320, targeted, valid};
use second::random::Random;
use second::{Chip, Rules, Settings, Verdict};

/// Named cases whose reserved places are not zero, on both chips.
pub fn reserved() -> Vec<WriterCall> {
    let cases = targeted().iter();
    let cases = cases.filter(|(name, _)| name.contains("reserved places"));
    let rewritten = |table: &[u8], chip: Chip| {
        WriterCall::rewrite(writing(chip, 0), table.to_vec(), vec![0xA5; table.len()])
    };
    cases
        .flat_map(|(_, table)| Chip::BOTH.map(|chip| rewritten(table, chip)))
        .collect()
}

/// The rewritings of one table. An accepted one is written twice: what is written must come again.
pub fn calls(random: &mut Random) -> Vec<WriterCall> {
    let chip = *random.pick(&Chip::BOTH);
    let settings = writing(chip, random.word());
    let table = match random.below(10) {
        0..=2 => valid(random, chip.into()),
        3 => only_on_the_320(random, Rules::Ordinary),
        4 => only_in_the_archive(random, chip),
        _ => {
            let rules = *random.pick(&Rules::BOTH);
            any(random, Settings::new(chip, rules))
        }
    };
    let longer = table.len() + random.between(1, 40);
    let mut calls: Vec<WriterCall> = [table.len().saturating_sub(1), table.len(), longer]
        .into_iter()
        .map(|room| WriterCall::rewrite(settings, table.clone(), random.bytes(room)))
        .collect();
    if matches!(second::check(&table, chip.into()), Verdict::Accepted(_)) {
        let cleared = second::cleared(&table);
        let room = random.bytes(table.len());
        calls.push(WriterCall::rewrite(settings, cleared, room));
    }
    calls
}
