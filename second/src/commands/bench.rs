//! `bench`: the median time of the reader on five sorts of tables, of which each comes in one piece, in reports of 64 bytes and
//! in single bytes.

use super::End;
use second::generator::{self, raw::TABLE_A};
use second::random::Random;
use second::{Receiver, Refusal, Settings};
use std::hint::black_box;
use std::time::Instant;

/// Timed rounds, each over all tables of a sort; the median round counts.
const ROUNDS: usize = 101;

pub fn bench(settings: Settings, arguments: &[String]) -> End {
    if let Some(other) = arguments.first() {
        return End::Misused(format!("'{other}' is one argument too many"));
    }
    let mut random = Random::new(1);
    let mut many = |count: usize, make: fn(&mut Random, Settings) -> Vec<u8>| -> Vec<Vec<u8>> {
        (0..count).map(|_| make(&mut random, settings)).collect()
    };
    let report = |name, tables: &[Vec<u8>]| report(name, tables, settings);
    report("table A", &vec![TABLE_A.to_vec(); 1000]);
    report("4,096 bytes of 09h", &many(200, generator::controllers));
    report("4,096 bytes mixed", &many(200, generator::mixed));
    report("4,096 bytes of text", &many(200, generator::texts));
    report("damaged", &many(5000, generator::damaged));
    End::Good
}

/// Name, nanoseconds for one table read whole, received in one piece, in reports and in single bytes; mean length of the tables.
fn report(name: &str, tables: &[Vec<u8>], settings: Settings) {
    let length: usize = tables.iter().map(Vec::len).sum();
    let whole = median(tables, |table| second::check(table, settings).into_result());
    let [piece, reports, bytes] =
        [usize::MAX, 64, 1].map(|size| median(tables, |table| received(table, size, settings)));
    println!(
        "{name}\t{whole:.1} ns\treceived in one piece {piece:.1} ns, in reports of 64 {reports:.1} ns, \
        in single bytes {bytes:.1} ns\t{} bytes on average",
        length / tables.len()
    );
}

fn received(table: &[u8], size: usize, settings: Settings) -> Result<usize, Refusal> {
    let mut receiver = Receiver::start(settings);
    for piece in table.chunks(size) {
        receiver.piece(piece)?;
    }
    receiver.end()
}

fn median(tables: &[Vec<u8>], side: impl Fn(&[u8]) -> Result<usize, Refusal>) -> f64 {
    let mut times: Vec<f64> = (0..ROUNDS)
        .map(|_| {
            let begin = Instant::now();
            for table in tables {
                let _ = black_box(side(black_box(table)));
            }
            begin.elapsed().as_nanos() as f64 / tables.len() as f64
        })
        .collect();
    times.sort_by(f64::total_cmp);
    times[ROUNDS / 2]
}
