//! `check`, `make` and `diff`: tables in files.

use super::options::Options;
use super::End;
use second::generator;
use second::random::Random;
use second::{Chip, Refused, Settings};
use std::io::{Read, Write};
use std::path::Path;

/// One line for each file: number, place or count, file.
pub fn check(settings: Settings, files: &[String]) -> End {
    if files.is_empty() {
        return End::Misused("name one file or more".into());
    }
    let mut end = End::Good;
    for file in files {
        match std::fs::read(file) {
            Ok(table) => {
                let verdict = second::check(&table, settings);
                println!("{}\t{}\t{file}", verdict.number(), verdict.beside());
            }
            Err(why) => {
                eprintln!("second: cannot read {file}: {why}");
                end = End::Failed;
            }
        }
    }
    end
}

type Make = fn(&mut Random, Settings) -> Vec<u8>;

fn maker(kind: &str) -> Result<Make, String> {
    match kind {
        "valid" => Ok(generator::valid),
        "mixed" => Ok(generator::mixed),
        "controllers" => Ok(generator::controllers),
        "texts" => Ok(generator::texts),
        "damaged" => Ok(generator::damaged),
        "wrecked" => Ok(generator::wrecked),
        "any" => Ok(generator::any),
        _ => Err(format!("there is no kind '{kind}'")),
    }
}

/// Writes tables generated for the settings as files `KIND-000000.bin` and so on.
pub fn make(settings: Settings, arguments: &[String]) -> End {
    match try_make(settings, arguments) {
        Ok(Ok(())) => End::Good,
        Ok(Err(why)) => {
            eprintln!("second: cannot write: {why}");
            End::Failed
        }
        Err(why) => End::Misused(why),
    }
}

fn try_make(settings: Settings, arguments: &[String]) -> Result<std::io::Result<()>, String> {
    let options = Options::read(arguments, &["seed", "count"])?;
    let [kind, directory] = options.others.as_slice() else {
        return Err("name a kind and a directory".into());
    };
    let make = maker(kind)?;
    let mut random = Random::new(options.number("seed")?);
    let count = options.number("count")?;
    Ok(write_all(kind, Path::new(directory), count, || {
        make(&mut random, settings)
    }))
}

fn write_all(
    kind: &str,
    directory: &Path,
    count: u64,
    mut next: impl FnMut() -> Vec<u8>,
) -> std::io::Result<()> {
    std::fs::create_dir_all(directory)?;
    for at in 0..count {
        std::fs::write(directory.join(format!("{kind}-{at:06}.bin")), next())?;
    }
    Ok(())
}

/// The lines of two files, or the `R` line of the first that is refused, or the `X` line of the first that cannot be read.
pub fn diff(chip: Chip, files: &[String]) -> End {
    let [one, two] = files else {
        return End::Misused("name two files".into());
    };
    let (one, two) = (read_table(one), read_table(two));
    let text = match (one, two) {
        (Err(_), _) => b"X\t1\n".to_vec(),
        (_, Err(_)) => b"X\t2\n".to_vec(),
        (Ok(one), Ok(two)) => second::diff_text(&one, &two, chip).unwrap_or_else(refusal_line),
    };
    match std::io::stdout().lock().write_all(&text) {
        Ok(()) => End::Good,
        Err(_) => End::Failed,
    }
}

/// 4,097 bytes are enough: a longer table answers 2 or 3 by its first byte alone, and so do these.
pub fn read_table(file: &str) -> std::io::Result<Vec<u8>> {
    let mut table = Vec::new();
    std::fs::File::open(file)?
        .take(4097)
        .read_to_end(&mut table)?;
    Ok(table)
}

fn refusal_line(Refused { table, refusal }: Refused) -> Vec<u8> {
    format!("R\t{table}\t{}\t{}\n", refusal.number, refusal.place).into_bytes()
}
