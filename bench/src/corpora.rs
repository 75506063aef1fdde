//! The tables that both sides read.

use second::generator::{self, raw};
use second::random::Random;
use second::Settings;

pub struct Corpus {
    pub name: &'static str,
    pub tables: Vec<Vec<u8>>,
}

/// Accepted with these settings, the damaged ones excepted.
pub fn all(settings: Settings) -> Vec<Corpus> {
    let made = |name, count, make: fn(&mut Random, Settings) -> Vec<u8>| {
        let mut random = Random::new(1);
        let tables = (0..count).map(|_| make(&mut random, settings)).collect();
        Corpus { name, tables }
    };
    let controllers = "200 tables of 4,096 bytes, 09h";
    let mixed = "200 tables of 4,096 bytes, all kinds";
    let texts = "200 tables of 4,096 bytes, text";
    vec![
        Corpus {
            name: "table A",
            tables: vec![raw::TABLE_A.to_vec()],
        },
        made(controllers, 200, generator::controllers),
        made(mixed, 200, generator::mixed),
        made(texts, 200, generator::texts),
        made("5,000 damaged tables", 5_000, generator::damaged),
    ]
}
