//! How often each answer came.

/// Counts by number of answer, 0 to 25.
#[derive(Clone, Debug, Default, PartialEq, Eq)]
pub struct Histogram {
    counts: [u64; 26],
}

impl Histogram {
    pub fn new() -> Histogram {
        Histogram::default()
    }

    pub fn add(&mut self, number: u8) {
        self.counts[usize::from(number)] += 1;
    }

    pub fn of(&self, number: u8) -> u64 {
        self.counts[usize::from(number)]
    }

    pub fn total(&self) -> u64 {
        self.counts.iter().sum()
    }

    /// The numbers of this range that never came.
    pub fn missing(&self, numbers: std::ops::RangeInclusive<u8>) -> Vec<u8> {
        numbers.filter(|&number| self.of(number) == 0).collect()
    }

    /// One line for each answer that came: number, tab, count.
    pub fn lines(&self) -> String {
        (0..=25)
            .filter(|&number| self.of(number) > 0)
            .map(|number| format!("{number}\t{}\n", self.of(number)))
            .collect()
    }
}
