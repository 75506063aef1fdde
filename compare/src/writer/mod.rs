//! The writer's calls, start, append and rewrite, on both sides.

mod call;
mod chips;
mod codes;
mod edges;
mod parts;
mod rewritings;
mod runs;
mod samples;
mod stream;
mod tally;

use crate::exchange::Exchange;
use crate::options::Options;
use crate::progress::Progress;
use second::random::Random;
use second::Chip;
use tally::Tally;

pub use call::{Does, WriterCall};
pub use stream::Stream;

const SEED: u64 = 2_026;
/// Seeded calls of the gate; the calls at the edges come in addition.
const SEEDED: u64 = 60_000;
/// Tables that the gate writes again, each into three buffers or four.
const REWRITTEN: u64 = 3_000;

type Comparison = Exchange<WriterCall, Tally>;

impl Comparison {
    /// Compares one call; its answer may come later.
    fn call(&mut self, call: WriterCall) -> Result<(), String> {
        let second = call.second();
        self.ask(call, second)
    }
}

/// Every call at the edges, and calls of a fixed seed. Every answer must come at least once.
pub fn gate(options: &Options) -> Result<bool, String> {
    let mut comparison = Comparison::start(options)?;
    for chip in Chip::BOTH {
        at_the_edges(&mut comparison, chip)?;
    }
    for call in Stream::new(SEED).take(SEEDED as usize) {
        comparison.call(call)?;
    }
    for call in rewritings::reserved() {
        comparison.call(call)?;
    }
    let mut random = Random::new(SEED);
    for _ in 0..REWRITTEN {
        let calls = rewritings::calls(&mut random);
        calls
            .into_iter()
            .try_for_each(|call| comparison.call(call))?;
    }
    let tally = comparison.finish()?;
    tally.print_answers();
    let all = tally.all_came();
    Ok(summed(&tally) && all)
}

/// Codes, sizes and parts are nearly the same to both chips: on the 321 every second of their calls is enough.
fn at_the_edges(comparison: &mut Comparison, chip: Chip) -> Result<(), String> {
    chips::calls(chip, &mut |call| comparison.call(call))?;
    let mut at = 0;
    let mut some = |call| {
        at += 1;
        match (chip, at % 2) {
            (Chip::F321, 0) => Ok(()),
            _ => comparison.call(call),
        }
    };
    codes::calls(chip, &mut some)?;
    edges::calls(chip, &mut some)?;
    parts::calls(chip, &mut some)
}

/// So many calls of one seed.
pub fn long(options: &Options, seed: u64, count: u64) -> Result<bool, String> {
    let progress = Progress::start("writer calls", seed);
    let mut comparison = Comparison::start(options)?;
    let mut stream = Stream::new(seed);
    for at in 0..count {
        progress.step(at, comparison.tally.differences.0);
        comparison.call(stream.call())?;
    }
    let tally = comparison.finish()?;
    progress.end(tally.calls);
    tally.print_answers();
    Ok(summed(&tally))
}

fn summed(tally: &Tally) -> bool {
    tally.print_sum();
    tally.differences.0 == 0
}
