//! `list`, `rewrite`, `fan`, `remove`, `pins`, `hex`, `unhex`, `receive` and `salvage`: a table, or its text, from standard input.

use super::End;
use second::answer::LARGEST_TABLE;
use second::sheet::FREE;
use second::{Chip, Receiver, Refusal, Settings};
use std::io::{Read, Write};

/// Of standard input as much as is needed: a table over 4,096 bytes answers 2 or 3 by its first byte alone, and
/// 4,097 of its bytes still are such a table.
const OF_A_TABLE: u64 = 4_097;
/// The longest text without a bad line has 65,535 data records of one byte, 14 characters each, one of 255 bytes at the last
/// address, and the end record of 12. In a longer one the first bad line, or what follows the end, is met within one byte more.
const OF_A_TEXT: u64 = 65_535 * 14 + (12 + 2 * 255) + 12 + 1;

fn read(most: u64) -> std::io::Result<Vec<u8>> {
    let mut bytes = Vec::new();
    std::io::stdin().lock().take(most).read_to_end(&mut bytes)?;
    Ok(bytes)
}

fn transform(arguments: &[String], make: impl Fn(&[u8]) -> Vec<u8>) -> End {
    transform_most(OF_A_TABLE, arguments, make)
}

fn transform_most(most: u64, arguments: &[String], make: impl Fn(&[u8]) -> Vec<u8>) -> End {
    if let Some(other) = arguments.first() {
        return End::Misused(format!("'{other}' is one argument too many"));
    }
    printed(read(most).map(|table| make(&table)))
}

/// Prints what was made of the input.
fn printed(made: std::io::Result<Vec<u8>>) -> End {
    let done = made.and_then(|text| {
        let mut out = std::io::stdout().lock();
        out.write_all(&text)?;
        out.flush()
    });
    match done {
        Ok(()) => End::Good,
        Err(why) => {
            eprintln!("second: standard input or output failed: {why}");
            End::Failed
        }
    }
}

fn refusal_line(refusal: Refusal) -> Vec<u8> {
    format!("R\t{}\t{}\n", refusal.number, refusal.place).into_bytes()
}

pub fn list(settings: Settings, arguments: &[String]) -> End {
    transform(arguments, |table| second::listing(table, settings))
}

/// The rewritten bytes, or the `R` line.
pub fn rewrite(chip: Chip, arguments: &[String]) -> End {
    transform(arguments, |table| {
        let mut out = vec![0; table.len()];
        written(second::rewrite(table, chip, &mut out), out)
    })
}

/// `yes` or `no` and the number of elements visited, or the `R` line.
pub fn fan(chip: Chip, arguments: &[String]) -> End {
    let zone = arguments.first().and_then(|word| word.parse::<u8>().ok());
    let Some(zone) = zone else {
        return End::Misused("fan wants the number of a zone, 0 to 255".into());
    };
    transform(&arguments[1..], |table| {
        match second::fan(table, zone, chip.into()) {
            Ok(walked) => {
                let word = if walked.met { "yes" } else { "no" };
                format!("{word}\t{}\n", walked.visited).into_bytes()
            }
            Err(refusal) => refusal_line(refusal),
        }
    })
}

/// The table without element K, or the `R` line.
pub fn remove(chip: Chip, arguments: &[String]) -> End {
    let k = arguments.first().and_then(|word| word.parse().ok());
    let Some(k) = k else {
        return End::Misused("remove wants the number of an element, counted from 0".into());
    };
    transform(&arguments[1..], |table| {
        let mut lent = table.to_vec();
        match second::remove(&mut lent, k, chip) {
            Ok(length) => lent[..length].to_vec(),
            Err(refusal) => refusal_line(refusal),
        }
    })
}

/// The text of the pin sheet, or the `R` line.
pub fn pins(chip: Chip, arguments: &[String]) -> End {
    transform(arguments, |table| {
        let mut sheet = [FREE; 25];
        match second::sheet(table, chip, &mut sheet) {
            Ok(_) => second::sheet_text(&sheet, chip).into_bytes(),
            Err(refusal) => refusal_line(refusal),
        }
    })
}

/// The text of the table, or the `R` line.
pub fn hex(chip: Chip, arguments: &[String]) -> End {
    transform(arguments, |table| {
        let mut out = vec![0; second::hex::LONGEST_TEXT];
        written(second::hex(table, chip, &mut out), out)
    })
}

/// The table of the text, or the `R` line.
pub fn unhex(chip: Chip, arguments: &[String]) -> End {
    transform_most(OF_A_TEXT, arguments, |text| {
        let mut out = vec![0; text.len()];
        written(second::unhex(text, chip, &mut out), out)
    })
}

/// The new table, and its lines on standard error; or the `R` line. The first 4,096 bytes count.
pub fn salvage(chip: Chip, arguments: &[String]) -> End {
    transform_most(
        LARGEST_TABLE as u64,
        arguments,
        |file| match second::saved(file, chip) {
            Ok((table, lines)) => {
                eprint!("{}", String::from_utf8_lossy(&lines));
                table
            }
            Err(refusal) => refusal_line(refusal),
        },
    )
}

fn written(answer: Result<usize, Refusal>, mut out: Vec<u8>) -> Vec<u8> {
    match answer {
        Ok(length) => {
            out.truncate(length);
            out
        }
        Err(refusal) => refusal_line(refusal),
    }
}

/// The longest report that is taken: a table is then one piece.
const LONGEST_REPORT: usize = 4096;
/// As the controller sends them.
const REPORT: usize = 64;

/// `ok` and the number of elements, or the `R` line. The input is read to its end, however long it is.
pub fn receive(settings: Settings, arguments: &[String]) -> End {
    let size = match arguments {
        [] => Some(REPORT),
        [word] => word.parse().ok(),
        _ => None,
    };
    match size {
        Some(size @ 1..=LONGEST_REPORT) => printed(received(settings, size)),
        _ => End::Misused(format!(
            "name the bytes of a report, 1 to {LONGEST_REPORT}, or nothing"
        )),
    }
}

fn received(settings: Settings, size: usize) -> std::io::Result<Vec<u8>> {
    let mut report = vec![0; size];
    let mut receiver = Receiver::start(settings);
    loop {
        let count = std::io::stdin().lock().read(&mut report)?;
        if count == 0 {
            break;
        }
        let _ = receiver.piece(&report[..count]);
    }
    let line = match receiver.end() {
        Ok(elements) => format!("ok\t{elements}\n"),
        Err(Refusal { number, place }) => format!("R\t{number}\t{place}\n"),
    };
    Ok(line.into_bytes())
}
