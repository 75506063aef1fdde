//! `trace`: the counts of a trace run through a table, both in files, or the trace from standard input; `lines`: a trace for a table.

use super::files::read_table;
use super::options::Options;
use super::End;
use second::generator;
use second::random::Random;
use second::trace::{Trace, PIECE, TEXT};
use second::{Chip, Settings};
use std::io::{BufWriter, Read, Write};

/// A trace of so many lines, good ones and others, for a table that is good on this chip.
pub fn lines(chip: Chip, arguments: &[String]) -> End {
    let (seed, count, file) = match read(arguments) {
        Ok(read) => read,
        Err(why) => return End::Misused(why),
    };
    let table = match read_table(&file) {
        Ok(table) if second::check(&table, Settings::from(chip)).number() == 0 => table,
        _ => {
            eprintln!("second: {file} is no table, or cannot be read");
            return End::Failed;
        }
    };
    let trace = generator::trace(&mut Random::new(seed), &table, count as usize);
    match std::io::stdout().lock().write_all(&trace) {
        Ok(()) => End::Good,
        Err(_) => End::Failed,
    }
}

fn read(arguments: &[String]) -> Result<(u64, u64, String), String> {
    let options = Options::read(arguments, &["seed", "count"])?;
    let [file] = options.others.as_slice() else {
        return Err("name a table's file".into());
    };
    let (seed, count) = (options.number("seed")?, options.number("count")?);
    Ok((seed, count, file.clone()))
}

/// The output lines, or the table's `R` line alone, or the `X` line of the first file that cannot be read.
pub fn trace(chip: Chip, files: &[String]) -> End {
    let (table, trace) = match files {
        [table] => (table, None),
        [table, trace] => (table, Some(trace)),
        _ => return End::Misused("name a table's file, and a trace's or none".into()),
    };
    match put(chip, table, trace) {
        Ok(()) => End::Good,
        Err(why) => {
            eprintln!("second: standard input or output failed: {why}");
            End::Failed
        }
    }
}

fn put(chip: Chip, table: &str, trace: Option<&String>) -> std::io::Result<()> {
    let mut out = BufWriter::new(std::io::stdout().lock());
    let Ok(table) = read_table(table) else {
        return out.write_all(b"X\t1\n");
    };
    let under_way = match Trace::start(&table, chip) {
        Ok(under_way) => under_way,
        Err(refusal) => return writeln!(out, "R\t{}\t{}", refusal.number, refusal.place),
    };
    let from: Box<dyn Read> = match trace {
        None => Box::new(std::io::stdin().lock()),
        Some(file) => match std::fs::File::open(file) {
            Ok(file) if !file.metadata()?.is_dir() => Box::new(file),
            _ => return out.write_all(b"X\t2\n"),
        },
    };
    run(under_way, from, &mut out)?;
    out.flush()
}

/// Piece by piece, as they come.
fn run(mut trace: Trace, mut from: impl Read, to: &mut impl Write) -> std::io::Result<()> {
    let (mut piece, mut text) = ([0; PIECE], Box::new([0; TEXT]));
    loop {
        let count = from.read(&mut piece)?;
        if count == 0 {
            break;
        }
        let length = trace.piece(&piece[..count], &mut text);
        to.write_all(&text[..length])?;
    }
    let length = trace.end(&mut text);
    to.write_all(&text[..length])
}
