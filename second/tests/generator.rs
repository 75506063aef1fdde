//! The generated tables are what they claim to be.

use second::access::walk;
use second::generator;
use second::random::Random;
use second::{plain, Chip, Rules, Settings, Verdict};
use std::collections::HashSet;

fn accepted(table: &[u8], settings: Settings) -> bool {
    matches!(second::check(table, settings), Verdict::Accepted(_))
}

/// Identifiers of all elements of an accepted table.
fn kinds(table: &[u8]) -> Vec<u8> {
    walk(table).map(|(_, bytes)| bytes[0]).collect()
}

#[test]
fn valid_tables_are_accepted_and_reach_every_bound() {
    for settings in Settings::ALL {
        accepted_and_of_every_size(settings);
    }
}

fn accepted_and_of_every_size(settings: Settings) {
    let mut random = Random::new(11);
    let mut sizes = HashSet::new();
    let mut counts = HashSet::new();
    let mut zones = HashSet::new();
    let mut seen = HashSet::new();
    for _ in 0..20_000 {
        let table = generator::valid(&mut random, settings);
        let verdict = second::check(&table, settings);
        let Verdict::Accepted(count) = verdict else {
            panic!("{verdict:?}: {table:02X?}");
        };
        assert_eq!(plain::check(&table, settings), verdict);
        sizes.insert(table.len());
        counts.insert(count);
        let kinds = kinds(&table);
        zones.insert(kinds.iter().filter(|&&kind| kind == 0x0B).count());
        seen.extend(kinds);
    }
    assert!(sizes.contains(&16) && sizes.contains(&4096));
    assert!((0..=96).all(|count| counts.contains(&count)));
    assert!((0..=12).all(|count| zones.contains(&count)));
    assert_eq!(seen.len(), 14);
}

/// Each use meets each pin it permits, shared selects, both powers and every number of blocks.
#[test]
fn valid_tables_use_all_that_is_permitted() {
    // All but P1.0, and unused.
    for rules in Rules::BOTH {
        let [on_320, on_321] = Chip::BOTH.map(|chip| Settings::new(chip, rules));
        permitted_are_met(on_320, [25, 18, 13, 18 + 1]);
        permitted_are_met(on_321, [21, 14, 9, 14 + 1]);
    }
}

/// So many different bytes as hardware revision, chip select, analogue sensor and LED.
fn permitted_are_met(settings: Settings, [hardware, selects, analogue, lights]: [usize; 4]) {
    let mut random = Random::new(14);
    let mut seen: HashSet<(&str, u8)> = HashSet::new();
    for _ in 0..5_000 {
        let table = generator::valid(&mut random, settings);
        seen.extend(table[9..12].iter().map(|&pin| ("hardware", pin)));
        seen.insert(("self-powered", table[8] >> 7));
        let mut selects = HashSet::new();
        for (_, e) in walk(&table) {
            let on_a_bus = matches!(e[0], 0x01 | 0x09 | 0x0A | 0x0D);
            if on_a_bus {
                seen.extend([("bus type", e[8] & 15), ("its byte", e[8])]);
            }
            let spi = on_a_bus && e[8] & 15 == 3;
            if spi && !selects.insert(e[9]) {
                seen.insert(("shared select", e[9]));
            }
            seen.extend(pins_of(e));
            if e[0] == 0x0D {
                seen.insert(("chip identifier", e[11]));
                for w in 0..3 {
                    let block = second::blocks::colour_block(&e[12..], w).unwrap();
                    let name = ["red pairs", "green pairs", "blue pairs"][w];
                    seen.insert((name, block.entries().min(4)));
                }
            }
            if e[0] == 0x09 {
                let blocks = second::blocks::count_speed_blocks(&e[11..]).unwrap();
                seen.insert(("blocks", blocks as u8));
            }
        }
    }
    let count = |name: &str| seen.iter().filter(|(of, _)| *of == name).count();
    assert_eq!(count("hardware"), hardware);
    assert_eq!(count("self-powered"), 2);
    assert_eq!(count("select"), selects);
    assert_eq!(count("shared select"), selects);
    for sensor in ["analogue", "water level", "voltage", "current"] {
        assert_eq!(count(sensor), analogue, "{sensor}");
    }
    assert_eq!((count("pump"), count("pump's tachometer")), (5, 4 + 1));
    assert_eq!((count("light"), count("PWM")), (lights, 5));
    // Four pins can follow a PWM pin, and unused; three can be red, three green, three blue.
    assert_eq!(count("tachometer"), 4 + 1);
    assert_eq!((count("red"), count("green"), count("blue")), (3, 3, 3));
    assert_eq!(count("blocks"), 6);
    assert_eq!(count("chip identifier"), 3);
    for colour in ["red pairs", "green pairs", "blue pairs"] {
        assert_eq!(count(colour), 5);
    }
    let archive = settings.rules == Rules::Archive;
    assert_eq!(count("bus type"), if archive { 4 } else { 3 });
    // With its reserved bits clear and set.
    for byte in [0x02, 0xF2] {
        assert_eq!(seen.contains(&("its byte", byte)), archive);
    }
}

/// The pin fields of one element, each with its use.
fn pins_of(e: &[u8]) -> Vec<(&'static str, u8)> {
    match e[0] {
        0x01 | 0x09 | 0x0A | 0x0D if e[8] & 15 == 3 => vec![("select", e[9])],
        0x05 => vec![("water level", e[8])],
        0x06 => vec![("pump", e[8]), ("pump's tachometer", e[9])],
        0x07 => vec![("voltage", e[8])],
        0x02 => vec![("analogue", e[9])],
        0x03 => vec![("PWM", e[8]), ("tachometer", e[9])],
        0x04 => vec![("light", e[8]), ("light", e[10]), ("light", e[12])],
        0x08 => vec![("current", e[8])],
        0x0E => vec![("red", e[8]), ("green", e[9]), ("blue", e[10])],
        _ => Vec::new(),
    }
}

#[test]
fn mixed_tables_have_4096_bytes_and_all_kinds() {
    let mut random = Random::new(12);
    let mut different = HashSet::new();
    for at in 0..1000 {
        let settings = Settings::ALL[at % 4];
        let table = generator::mixed(&mut random, settings);
        assert!(accepted(&table, settings));
        assert_eq!(table.len(), 4096);
        let kinds: HashSet<u8> = kinds(&table).into_iter().collect();
        assert_eq!(kinds.len(), 14, "{kinds:?}");
        // Texts of up to 64 units.
        let lengths = walk(&table).filter(|(_, bytes)| bytes[0] == 0x0C);
        assert!(lengths.map(|(_, bytes)| bytes.len()).max() <= Some(6 + 128));
        different.insert(table);
    }
    assert_eq!(different.len(), 1000);
}

#[test]
fn controller_tables_have_4096_bytes_and_one_zone() {
    let mut random = Random::new(13);
    let mut different = HashSet::new();
    let mut blocks_seen = HashSet::new();
    for at in 0..1000 {
        let settings = Settings::ALL[at % 4];
        let table = generator::controllers(&mut random, settings);
        assert!(accepted(&table, settings));
        assert_eq!(table.len(), 4096);
        let mut kinds = kinds(&table);
        kinds.retain(|&kind| kind != 0x09);
        assert_eq!(kinds, [0x0B]);
        for (_, bytes) in walk(&table).filter(|(_, bytes)| bytes[0] == 0x09) {
            blocks_seen.insert(second::blocks::count_speed_blocks(&bytes[11..]).unwrap());
        }
        different.insert(table);
    }
    assert_eq!(different.len(), 1000);
    assert!((1..=6).all(|count| blocks_seen.contains(&count)));
}

/// The names of the targeted cases are all different, so that a failure names one table.
#[test]
fn targeted_cases_have_different_names() {
    let mut names = HashSet::new();
    for (name, _) in generator::targeted() {
        assert!(names.insert(name), "{name}");
    }
}

/// FNV-1a over many tables: a change of this number is a change of every recorded run.
#[test]
fn the_same_seed_gives_the_same_tables() {
    let fingerprint = |seed: u64| {
        let mut random = Random::new(seed);
        let mut hash: u64 = 0xCBF2_9CE4_8422_2325;
        for _ in 0..2000 {
            for byte in generator::any(&mut random, Settings::ALL[seed as usize]) {
                hash = (hash ^ u64::from(byte)).wrapping_mul(0x100_0000_01B3);
            }
        }
        hash
    };
    let found = [0, 3].map(fingerprint);
    assert_eq!(found, [0x6053_E038_8C8F_C0FA, 0x71D5_648B_8493_5545]);
}

/// Damaged files of every sort: what is left of them, and what is wrong with them.
#[test]
fn damaged_files_are_of_every_sort() {
    for chip in Chip::BOTH {
        let mut random = Random::new(14);
        let mut met: HashSet<&str> = HashSet::new();
        let mut meets = |sort, met_here: bool| met_here.then(|| met.insert(sort));
        for _ in 0..4_000 {
            let file = generator::wrecked(&mut random, chip.into());
            let taken = &file[..file.len().min(4_096)];
            meets("just 4,096 bytes", file.len() == 4_096);
            meets("just 4,097 bytes", file.len() == 4_097);
            let Ok((table, lines)) = second::saved(&file, chip) else {
                meets("lost", true);
                continue;
            };
            let lines = lines.iter().filter(|&&byte| byte == b'\n').count();
            let (before, left) = (generator::raw::cut(taken).count(), walk(&table).count());
            meets(
                "96 kept, and more behind",
                left == 96 && lines + 96 < before,
            );
            meets("a table as it was", lines == 0 && table == file);
            meets(
                "reserved places alone",
                lines == 0 && table.len() == file.len() && table != file,
            );
            meets("all lost but the description", left == 0 && lines > 0);
            meets("as many lines as there can be", lines == 1_360);
            meets(
                "more than half saved of much",
                left > 20 && lines < left / 2 && lines > 2,
            );
        }
        assert_eq!(met.len(), 9, "{chip:?}: {met:?}");
    }
}

#[test]
fn mixed_tables_have_as_many_elements_as_asked_for() {
    let mut random = Random::new(17);
    for elements in 1..=96 {
        for at in 0..20 {
            let settings = Settings::ALL[at % 4];
            let table = generator::mixed_of(&mut random, elements, settings);
            let verdict = second::check(&table, settings);
            assert_eq!(verdict, Verdict::Accepted(elements));
            let kinds: HashSet<u8> = kinds(&table).into_iter().collect();
            assert_eq!(kinds.len() == 14, elements >= 18, "{elements}: {kinds:?}");
        }
    }
}

/// Good tables use the four pins on the larger chip alone, and there for every use.
#[test]
fn tables_around_the_four() {
    let mut random = Random::new(18);
    let mut seen: HashSet<(&str, u8)> = HashSet::new();
    for at in 0..5_000 {
        let rules = Rules::BOTH[at % 2];
        let table = generator::only_on_the_320(&mut random, rules);
        assert!(generator::touches_the_four(&table));
        seen.extend(table[9..12].iter().map(|&pin| ("hardware", pin)));
        seen.extend(walk(&table).flat_map(|(_, element)| pins_of(element)));
        let table = generator::valid(&mut random, Settings::new(Chip::F321, rules));
        assert!(!generator::touches_the_four(&table));
    }
    for used in [
        "hardware",
        "select",
        "analogue",
        "water level",
        "voltage",
        "current",
        "light",
    ] {
        for pin in generator::AROUND {
            assert!(seen.contains(&(used, pin)), "{used} {pin:02X}h");
        }
    }
}

/// Whatever the bytes: where no pin place has one of the four, the chips do not differ, and where no bus
/// device is in block mode, the rules do not.
#[test]
fn tables_that_touch_none_of_the_four_or_no_block_mode() {
    let mut random = Random::new(19);
    let mut untouched = [0; 2];
    for at in 0..20_000 {
        let settings = Settings::ALL[at % 4];
        let table = generator::any(&mut random, Settings::ALL[at / 4 % 4]);
        let verdict = second::check(&table, settings);
        if !generator::touches_the_four(&table) {
            let other = second::check(&table, settings.other_chip());
            assert_eq!(verdict, other, "{table:02X?}");
            untouched[0] += 1;
        }
        if !generator::has_block_mode(&table) {
            let other = second::check(&table, settings.other_rules());
            assert_eq!(verdict, other, "{table:02X?}");
            untouched[1] += 1;
        }
    }
    assert!(
        untouched.iter().all(|&count| count > 5_000),
        "{untouched:?}"
    );
}
