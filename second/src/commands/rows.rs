//! `rows`: tables in hex with their answers, for comparison with the proved program.

use super::options::Options;
use super::End;
use second::answer::number;
use second::generator;
use second::random::Random;
use second::{Settings, Verdict};
use std::collections::HashSet;
use std::io::Write;

/// The table and its answer.
type Row = (Vec<u8>, Verdict);

/// Rows gathered so far, each table once.
struct Rows {
    settings: Settings,
    rows: Vec<Row>,
    seen: HashSet<Vec<u8>>,
    count: usize,
    max: usize,
}

pub fn rows(settings: Settings, arguments: &[String]) -> End {
    let options = match read(arguments) {
        Ok(options) => options,
        Err(why) => return End::Misused(why),
    };
    let (seed, count, max) = options;
    let mut rows = Rows {
        settings,
        rows: Vec::new(),
        seen: HashSet::new(),
        count,
        max,
    };
    let mut random = Random::new(seed);
    rows.smallest_of_each();
    rows.targeted(&mut random);
    rows.generated(&mut random);
    rows.say_missing();
    match rows.print() {
        Ok(()) => End::Good,
        Err(_) => End::Failed,
    }
}

fn read(arguments: &[String]) -> Result<(u64, usize, usize), String> {
    let options = Options::read(arguments, &["seed", "count", "max"])?;
    options.no_others()?;
    Ok((
        options.number("seed")?,
        options.number("count")? as usize,
        options.number("max")? as usize,
    ))
}

/// The shortest targeted table with this answer.
fn smallest(number: u8, settings: Settings) -> Option<&'static Vec<u8>> {
    generator::targeted()
        .iter()
        .map(|(_, table)| table)
        .filter(|table| second::check(table, settings).number() == number)
        .min_by_key(|table| table.len())
}

impl Rows {
    fn full(&self) -> bool {
        self.rows.len() >= self.count
    }

    /// Takes the table unless it is too long, known already or there are rows enough.
    fn take(&mut self, table: &[u8]) -> bool {
        if self.full() || table.len() > self.max || self.seen.contains(table) {
            return false;
        }
        self.seen.insert(table.to_vec());
        let verdict = second::check(table, self.settings);
        self.rows.push((table.to_vec(), verdict));
        true
    }

    /// The shortest targeted table for each answer, so that each is there if it can be.
    fn smallest_of_each(&mut self) {
        for number in number::of_a_table(self.settings.rules) {
            if let Some(table) = smallest(number, self.settings) {
                self.take(table);
            }
        }
    }

    /// Half of the rows from the targeted tables, taking the answers in turn.
    fn targeted(&mut self, random: &mut Random) {
        let mut piles: Vec<Vec<&[u8]>> = vec![Vec::new(); 26];
        for (_, table) in generator::targeted() {
            let verdict = second::check(table, self.settings);
            piles[usize::from(verdict.number())].push(table);
        }
        for pile in &mut piles {
            random.shuffle(pile);
        }
        while self.rows.len() < self.count / 2 && piles.iter().any(|pile| !pile.is_empty()) {
            for pile in &mut piles {
                if let Some(table) = pile.pop() {
                    self.take(table);
                }
            }
        }
    }

    /// The rest from tables of any sort.
    fn generated(&mut self, random: &mut Random) {
        let mut idle = 0;
        // Small bounds leave few different tables; a long run without a new one is the end.
        while !self.full() && idle < 100_000 {
            idle += 1;
            let table = generator::any(random, self.settings);
            if self.take(&table) {
                idle = 0;
            }
        }
        if !self.full() {
            eprintln!(
                "second: found only {} different tables of at most {} bytes",
                self.rows.len(),
                self.max
            );
        }
    }

    /// An answer can be missing because its shortest table is too long, or for want of rows.
    fn say_missing(&self) {
        for number in number::of_a_table(self.settings.rules) {
            let there = |row: &Row| row.1.number() == number;
            if self.rows.iter().any(there) {
                continue;
            }
            let shortest = smallest(number, self.settings).map_or(0, Vec::len);
            eprintln!("second: answer {number} is left out: raise --count, or --max to {shortest}");
        }
    }

    fn print(&self) -> std::io::Result<()> {
        let mut out = std::io::BufWriter::new(std::io::stdout().lock());
        for (table, verdict) in &self.rows {
            for byte in table {
                write!(out, "{byte:02X}")?;
            }
            writeln!(out, "\t{}\t{}", verdict.number(), verdict.beside())?;
        }
        out.flush()
    }
}
