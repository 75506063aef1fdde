//! The lines of a long run.

use std::time::Instant;

pub struct Progress {
    /// What is counted, in the plural.
    what: &'static str,
    seed: u64,
    begin: Instant,
}

impl Progress {
    /// From one line to the next.
    const STEP: u64 = 500_000;

    pub fn start(what: &'static str, seed: u64) -> Progress {
        let begin = Instant::now();
        Progress { what, seed, begin }
    }

    /// A line now and then: so many are asked, so many differences seen.
    pub fn step(&self, asked: u64, differences: u64) {
        if asked > 0 && asked.is_multiple_of(Progress::STEP) {
            let (what, pace) = (self.what, self.pace(asked));
            println!("{asked} {what} asked, {differences} differences, {pace}");
        }
    }

    pub fn end(&self, asked: u64) {
        println!("seed {}, {}", self.seed, self.pace(asked));
    }

    fn pace(&self, asked: u64) -> String {
        let seconds = self.begin.elapsed().as_secs_f64();
        let each = asked as f64 / seconds;
        format!("{seconds:.0} s, {each:.0} {} a second", self.what)
    }
}
