//! The gate: known tables, texts, named cases, and generated tables of fixed seeds.

use crate::comparison::Comparison;
use crate::fans;
use crate::fields;
use crate::hex;
use crate::known;
use crate::options::Options;
use crate::pairs;
use crate::question::Origin;
use crate::receiving;
use crate::removals;
use crate::salvage;
use crate::sheets;
use crate::tally::Tally;
use crate::texts;
use crate::traces;
use second::generator::{self, raw};
use second::random::Random;
use second::{Chip, Settings};

const SEEDS: [u64; 4] = [2007, 90, 16, 4096];
const TABLES_OF_A_SEED: u64 = 15_000;

pub fn gate(options: &Options) -> Result<bool, String> {
    let mut comparison = Comparison::start(options)?;
    for row in known::rows().into_iter().chain(texts::rows()) {
        comparison.known(row)?;
    }
    comparison.known_fans()?;
    comparison.known_removals()?;
    comparison.known_sheets()?;
    comparison.hex_texts()?;
    comparison.known_pairs()?;
    comparison.known_salvages()?;
    // Two and two, as many cases come in pairs.
    for (at, (name, table)) in generator::targeted().iter().enumerate() {
        let made_for = Settings::ALL[at / 2 % 4];
        comparison.table(Origin::Case(name), made_for, table.clone())?;
    }
    for (name, table) in oversized() {
        comparison.table(Origin::Case(name), Chip::F321.into(), table)?;
    }
    comparison.part_edges()?;
    comparison.receiving_edges()?;
    comparison.trace_edges()?;
    for seed in SEEDS {
        let mut random = Random::new(seed);
        for at in 0..TABLES_OF_A_SEED {
            comparison.seeded(&mut random, seed, at)?;
        }
    }
    Ok(judged(&comparison.finish()?, options.elements))
}

/// Tables so long that two bytes cannot say it, or that a length of 4,096 must not be cut out of.
fn oversized() -> Vec<(&'static str, Vec<u8>)> {
    let with = |length: usize, said: usize| {
        let mut table = raw::TABLE_A.to_vec();
        table.resize(length, 0);
        table[1..3].copy_from_slice(&(said as u16).to_le_bytes());
        table
    };
    vec![
        ("5,000 bytes that say 4,096", with(5_000, 4_096)),
        ("65,535 bytes that say so", with(65_535, 65_535)),
        ("65,536 bytes that say 0", with(65_536, 0)),
        ("65,552 bytes that say 16", with(65_552, 16)),
        ("69,632 bytes that say 4,096", with(69_632, 4_096)),
    ]
}

/// Every answer of the reader must have come at least once with each of the settings.
fn judged(tally: &Tally, elements: bool) -> bool {
    tally.print_answers();
    let mut good = tally.all_came(0, &[]);
    if elements {
        good &= tally.all_came(1, &[17]);
    }
    good &= tally.fields.as_ref().is_none_or(fields::Tally::all_came);
    good &= tally.fans.as_ref().is_none_or(fans::Tally::all_came);
    good &= tally
        .removals
        .as_ref()
        .is_none_or(removals::Tally::all_came);
    good &= tally.sheets.as_ref().is_none_or(sheets::Tally::all_came);
    good &= tally.hex.as_ref().is_none_or(hex::Tally::all_came);
    let receiving = tally.receiving.as_ref();
    good &= receiving.is_none_or(receiving::Tally::all_came);
    good &= tally.pairs.as_ref().is_none_or(pairs::Tally::all_came);
    good &= tally.traces.as_ref().is_none_or(traces::Tally::all_came);
    good &= tally.salvage.as_ref().is_none_or(salvage::Tally::all_came);
    tally.print_sum();
    good && tally.all_differences() == 0
}
