//! The fast reader against the plain one, with all settings; and the settings against each other.

use second::answer::number;
use second::generator;
use second::histogram::Histogram;
use second::random::Random;
use second::{plain, Rules, Settings, Verdict};

/// The answers of both readers with all settings. What the 321 accepts the 320 accepts, with the same count;
/// and whatever the 321 refuses for another reason than a pin, the 320 refuses so. Whatever the ordinary
/// reader answers but 23, the archive's answers too.
fn agree(name: &str, table: &[u8]) -> [Verdict; 4] {
    let answers = Settings::ALL.map(|settings| {
        let fast = second::check(table, settings);
        let plain = plain::check(table, settings);
        assert_eq!(fast, plain, "{name}, {settings}: {table:02X?}");
        fast
    });
    let [on_320, on_321, old_320, old_321] = answers;
    for (small, large) in [(on_321, on_320), (old_321, old_320)] {
        if small.number() != number::PIN {
            assert_eq!(small, large, "{name}: {table:02X?}");
        }
    }
    for (strict, old) in [(on_320, old_320), (on_321, old_321)] {
        if strict.number() != number::RETIRED {
            assert_eq!(strict, old, "{name}: {table:02X?}");
        }
        assert_ne!(old.number(), number::RETIRED, "{name}: {table:02X?}");
    }
    answers
}

/// How often each answer came with each of the settings; on the 320 where the 321 has another; by the
/// archive where the ordinary reader says 23.
#[derive(Default)]
struct Counts {
    settings: [Histogram; 4],
    chips_part: Histogram,
    rules_part: Histogram,
}

impl Counts {
    fn add(&mut self, answers: [Verdict; 4]) {
        for (histogram, answer) in self.settings.iter_mut().zip(answers) {
            histogram.add(answer.number());
        }
        let [on_320, on_321, old_320, _] = answers;
        if on_320 != on_321 {
            self.chips_part.add(on_320.number());
        }
        if on_320.number() == number::RETIRED {
            self.rules_part.add(old_320.number());
        }
    }

    /// Each answer at least so often with all settings that have it.
    fn often(&self, least: u64, wanted: impl Fn(u8) -> bool) {
        for settings in Settings::ALL {
            let counts = &self.settings[settings.number() as usize];
            for number in number::of_a_table(settings.rules) {
                let count = counts.of(number);
                assert!(
                    !wanted(number) || count >= least,
                    "{settings}: {number} came {count} times"
                );
            }
        }
    }
}

#[test]
fn on_all_targeted_tables() {
    let mut counts = Counts::default();
    for (name, table) in generator::targeted() {
        counts.add(agree(name, table));
    }
    assert!(counts.settings[0].total() > 10_000);
    counts.often(1, |_| true);
    // Where the 321 stops at a pin, the 320 accepts, or goes on to each of these.
    for number in [0, 6, 7, 12, 13, 14, 15, 23] {
        assert!(counts.chips_part.of(number) > 0, "{number}");
    }
    // Where the ordinary reader stops at block mode, the archive's does so too.
    for number in [0, 6, 7, 9, 10, 12, 13, 14, 15] {
        assert!(counts.rules_part.of(number) > 0, "{number}");
    }
}

#[test]
fn on_tables_of_any_sort() {
    let mut counts = Counts::default();
    for seed in 1..=4 {
        let mut random = Random::new(seed);
        for at in 0..30_000 {
            let table = generator::any(&mut random, Settings::ALL[at % 4]);
            counts.add(agree(&format!("seed {seed}, table {at}"), &table));
        }
    }
    // Every answer often, not merely once.
    counts.often(200, |_| true);
    for number in [0, 6, 7, 8, 9, 11, 12, 13, 14, 15, 23] {
        let count = counts.chips_part.of(number);
        assert!(count >= 20, "{number}: {count}");
    }
    for number in [0, 6, 7, 8, 9, 10, 11, 12, 13, 14, 15] {
        let count = counts.rules_part.of(number);
        assert!(count >= 50, "{number}: {count}");
    }
}

/// What only the larger chip accepts: the smaller one names a pin, of the description or of an element.
#[test]
fn on_tables_for_the_320_only() {
    let mut random = Random::new(80);
    let mut places = [0; 2];
    for at in 0..20_000 {
        let rules = Rules::BOTH[at % 2];
        let table = generator::only_on_the_320(&mut random, rules);
        let [on_320, on_321, old_320, old_321] = agree("for the 320 only", &table);
        let (large, small) = match rules {
            Rules::Ordinary => (on_320, on_321),
            Rules::Archive => (old_320, old_321),
        };
        assert!(matches!(large, Verdict::Accepted(_)), "{table:02X?}");
        assert_eq!(small.number(), 10, "{table:02X?}");
        places[usize::from(small.beside() == 0)] += 1;
    }
    assert!(places.iter().all(|&count| count > 500), "{places:?}");
}

/// What only the archive accepts: the ordinary reader names the first element in block mode.
#[test]
fn on_tables_for_the_archive_only() {
    let mut random = Random::new(85);
    for at in 0..20_000 {
        let settings = Settings::ALL[at % 2];
        let table = generator::only_in_the_archive(&mut random, settings.chip);
        let answers = agree("for the archive only", &table);
        let [strict, old] = [at % 2, at % 2 + 2].map(|at| answers[at]);
        assert!(matches!(old, Verdict::Accepted(_)), "{table:02X?}");
        let in_block_mode =
            |e: &[u8]| matches!(e[0], 0x01 | 0x09 | 0x0A | 0x0D) && e[8] & 0x0F == 2;
        let first = second::access::walk(&table).find(|(_, bytes)| in_block_mode(bytes));
        let wanted = Verdict::Refused {
            number: 23,
            place: first.expect("an element in block mode").0,
        };
        assert_eq!(strict, wanted, "{table:02X?}");
    }
}

/// Long tables of all kinds with a few bytes changed: the first refusal in the table's order must be found,
/// far into it too.
#[test]
fn on_long_mixed_tables_with_faults() {
    let mut random = Random::new(78);
    let mut counts = Counts::default();
    for at in 0..400 {
        let good = generator::mixed(&mut random, Settings::ALL[at % 4]);
        let starts: Vec<usize> = second::access::walk(&good).map(|(at, _)| at).collect();
        for _ in 0..100 {
            let mut table = good.clone();
            for _ in 0..random.between(1, 4) {
                let at = random.pick(&starts) + random.below(14);
                let bytes = [0, 1, 2, 3, 9, 0x10, 0x14, 0x24, 0xFF, random.byte()];
                if let Some(byte) = table.get_mut(at) {
                    *byte = *random.pick(&bytes);
                }
            }
            counts.add(agree("long and mixed", &table));
        }
    }
    counts.often(5, |number| number == 0 || (number >= 6 && number != 11));
}

/// A table whose one byte is set to each of 256 values, byte after byte.
#[test]
fn on_every_change_of_one_byte() {
    let mut random = Random::new(77);
    for at in 0..8 {
        let settings = Settings::ALL[at % 4];
        let mut table = generator::valid(&mut random, settings);
        while !(150..400).contains(&table.len()) {
            table = generator::valid(&mut random, settings);
        }
        for at in 0..table.len() {
            let old = table[at];
            for value in 0..=255 {
                table[at] = value;
                agree("one byte changed", &table);
            }
            table[at] = old;
        }
    }
}
