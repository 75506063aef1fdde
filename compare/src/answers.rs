//! How often each answer of a call came with each of the settings, both sides agreeing: told, and held to what
//! must come.

use second::answer::number;
use second::histogram::Histogram;
use second::Settings;

#[derive(Default)]
pub struct Answers([Histogram; 4]);

/// Every answer to a whole table with these settings, and these more.
pub fn of_a_table(settings: Settings, more: &[u8]) -> Vec<u8> {
    [&number::of_a_table(settings.rules), more].concat()
}

impl Answers {
    pub fn add(&mut self, settings: Settings, number: u8) {
        self.0[settings.number() as usize].add(number);
    }

    /// One line for each of the settings that was asked with: number and count of each answer.
    pub fn print(&self, name: &str) {
        for settings in Settings::ALL {
            let answers = &self.0[settings.number() as usize];
            if answers.total() == 0 {
                continue;
            }
            let counts: Vec<String> = (0..=25)
                .filter(|&number| answers.of(number) > 0)
                .map(|number| format!("{number}: {}", answers.of(number)))
                .collect();
            let counts = counts.join(", ");
            println!("answers of {name} on the {settings}: {counts}");
        }
    }

    /// Prints the answers that should have come with these settings and did not; true when all came.
    pub fn all_came(&self, name: &str, settings: Settings, wanted: &[u8]) -> bool {
        let mut missing = wanted.to_vec();
        missing.retain(|&number| self.0[settings.number() as usize].of(number) == 0);
        if !missing.is_empty() {
            println!("answers of {name} on the {settings} that never came: {missing:?}");
        }
        missing.is_empty()
    }
}
