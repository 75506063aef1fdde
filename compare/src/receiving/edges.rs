//! Where receiving has its edges.

use super::cuttings;
use super::step::Step;
use crate::known;
use second::generator::{self, raw};
use second::random::Random;
use second::Settings;

/// How the bytes of an edge come.
#[derive(Clone, Copy)]
enum Cut {
    /// At every single byte.
    InTwo,
    /// As every other table.
    AsOthers,
    /// Into a state that no start gave.
    Wild(u32),
    /// The first 16, and then 2^32 more.
    FarTooMany,
}

/// One conversation of the gate.
pub struct Edge {
    pub name: &'static str,
    pub settings: Settings,
    pub bytes: Vec<u8>,
    cut: Cut,
}

impl Edge {
    pub fn steps(&self, random: &mut Random) -> Vec<Step> {
        match self.cut {
            Cut::InTwo => cuttings::in_two(self.bytes.len()),
            Cut::AsOthers => cuttings::of_table(&self.bytes, random),
            Cut::Wild(seed) => vec![Step::Wild {
                seed,
                size: 1 + seed as usize % 100,
            }],
            Cut::FarTooMany => cuttings::far_too_many(),
        }
    }
}

const SEED: u64 = 64;
/// From one of the named cases that are cut in two to the next.
const NAMED_STEP: usize = 7;
/// Of each sort, with each of the settings.
const LONG_TABLES: usize = 6;
const WILD_STATES: u32 = 500;

pub fn all() -> Vec<Edge> {
    let mut edges = in_two();
    edges.extend(told_lengths());
    edges.extend(wild_states());
    let mut bytes = raw::TABLE_A.to_vec();
    bytes.resize(1 << 16, 0);
    edges.push(Edge {
        name: "2^32 bytes more than it has",
        settings: Settings::default(),
        bytes,
        cut: Cut::FarTooMany,
    });
    edges
}

/// The known tables, some of the named cases of at most 80 bytes, and some long tables.
fn in_two() -> Vec<Edge> {
    let edge = |settings, bytes| Edge {
        name: "every cut into two pieces",
        settings,
        bytes,
        cut: Cut::InTwo,
    };
    let known = known::rows().into_iter();
    let mut edges: Vec<Edge> = known.map(|row| edge(row.settings, row.table)).collect();
    let cases = generator::targeted().iter().map(|(_, table)| table);
    let short = cases.filter(|table| table.len() <= 80).step_by(NAMED_STEP);
    let short = short.enumerate();
    edges.extend(short.map(|(at, table)| edge(Settings::ALL[at % 4], table.clone())));
    let mut random = Random::new(SEED);
    let makers = [
        generator::mixed,
        generator::texts,
        generator::controllers,
        generator::damaged,
    ];
    for at in 0..4 * LONG_TABLES * makers.len() {
        let settings = Settings::ALL[at % 4];
        edges.push(edge(settings, makers[at / 4 % 4](&mut random, settings)));
    }
    edges
}

/// Lengths that bytes may say: those of no table, those around their own, the bounds.
fn told(length: usize) -> impl Iterator<Item = usize> {
    let around = length.saturating_sub(2)..length + 3;
    (0..=17).chain(around).chain([4_095, 4_096, 4_097, 65_535])
}

/// More and fewer bytes than are told, of tables that are good otherwise and of one that is not.
fn told_lengths() -> Vec<Edge> {
    let zone = raw::zone(1, 0);
    let mut tables = vec![
        raw::table(&[raw::fan(1, 0x05, 0x06), zone.clone()]),
        raw::table(&[raw::fan(1, 0x06, 0x05), zone]),
    ];
    for length in [0, 2, 15, 16, 17, 4_096, 4_097, 65_536, 65_552, 69_632] {
        let mut table = raw::TABLE_A.to_vec();
        table.resize(length, 0);
        tables.push(table);
    }
    let mut edges = Vec::new();
    for table in tables {
        for (at, said) in told(table.len()).enumerate() {
            let mut bytes = table.clone();
            if let Some(place) = bytes.get_mut(1..3) {
                place.copy_from_slice(&(said as u16).to_le_bytes());
            }
            edges.push(Edge {
                name: "a told length",
                settings: Settings::ALL[at % 4],
                bytes,
                cut: Cut::AsOthers,
            });
        }
    }
    edges
}

fn wild_states() -> Vec<Edge> {
    let mut random = Random::new(SEED);
    let wild = |seed: u32| {
        let settings = Settings::ALL[seed as usize % 4];
        Edge {
            name: "a state that no start gave",
            settings,
            bytes: generator::any(&mut random, settings),
            cut: Cut::Wild(seed),
        }
    };
    (0..WILD_STATES).map(wild).collect()
}
