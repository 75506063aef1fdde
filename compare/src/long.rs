//! A long run over tables of any sort.

use crate::comparison::Comparison;
use crate::options::Options;
use crate::progress::Progress;
use second::random::Random;

pub fn long(options: &Options, seed: u64, count: u64) -> Result<bool, String> {
    let progress = Progress::start("tables", seed);
    let mut comparison = Comparison::start(options)?;
    let mut random = Random::new(seed);
    for at in 0..count {
        progress.step(at, comparison.differences());
        comparison.seeded(&mut random, seed, at)?;
    }
    let tally = comparison.finish()?;
    progress.end(tally.tables);
    tally.print_answers();
    tally.print_sum();
    Ok(tally.all_differences() == 0)
}
