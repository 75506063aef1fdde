//! `self`: the program's own parts held against each other.

use super::options::Options;
use super::End;
use second::answer::number;
use second::generator;
use second::histogram::Histogram;
use second::random::Random;
use second::salvage::Line;
use second::{plain, Chip, Receiver, Rules, Settings, Verdict};

pub fn own(settings: Settings, arguments: &[String]) -> End {
    let (seed, count) = match read(arguments) {
        Ok(read) => read,
        Err(why) => return End::Misused(why),
    };
    let mut random = Random::new(seed);
    let mut histogram = Histogram::new();
    let mut differences = 0;
    for _ in 0..count {
        let table = generator::any(&mut random, settings);
        let other = generator::beside(&mut random, &table, settings);
        let verdict = second::check(&table, settings);
        histogram.add(verdict.number());
        let wreck = generator::wrecked(&mut random, settings);
        let compared = compare(&table, settings, verdict)
            .and_then(|()| side_by_side(&table, &other, settings.chip))
            .and_then(|()| traced(&mut random, &table, settings.chip))
            .and_then(|()| saved(&table, settings.chip))
            .and_then(|()| saved(&wreck, settings.chip));
        if let Err(what) = compared {
            differences += 1;
            eprintln!("second: {what}: {table:02X?}, {wreck:02X?}");
        }
    }
    print!("{}", histogram.lines());
    println!("{} tables, {differences} differences", histogram.total());
    if differences == 0 {
        End::Good
    } else {
        End::Failed
    }
}

fn read(arguments: &[String]) -> Result<(u64, u64), String> {
    let options = Options::read(arguments, &["seed", "count"])?;
    options.no_others()?;
    Ok((options.number("seed")?, options.number("count")?))
}

/// Fast against plain, of readers, listings, fans and texts in HEX; pieces against the whole; the two rules against
/// each other; what is rewritten and what is taken out; the listing's shape. Tables side by side are held apart.
fn compare(table: &[u8], settings: Settings, fast: Verdict) -> Result<(), &'static str> {
    if plain::check(table, settings) != fast {
        return Err("the fast and the plain reader differ");
    }
    received(table, settings, fast)?;
    let ordinary = Settings::from(settings.chip);
    let strict = second::check(table, ordinary);
    let old = second::check(table, ordinary.other_rules());
    if strict.number() != number::RETIRED && strict != old {
        return Err("the ordinary and the archive's reader differ");
    }
    rewritten(table, settings.chip, strict)?;
    removed(table, settings.chip, strict)?;
    moved(table, settings.chip, old)?;
    for zone in zones_in(table).take(4).chain([0, 255]) {
        if second::fan(table, zone, settings) != plain::fan(table, zone, settings) {
            return Err("the fast and the plain walk to a fan differ");
        }
    }
    let text = second::listing(table, settings);
    if text != plain::listing(table, settings) {
        return Err("the fast and the plain listing differ");
    }
    let text = String::from_utf8(text).map_err(|_| "the listing is no text")?;
    let Verdict::Accepted(count) = fast else {
        let only = format!("R\t{}\t{}\n", fast.number(), fast.beside());
        return (text == only).then_some(()).ok_or("the R line is wrong");
    };
    shape(&text, count, settings.rules)
}

/// Byte 7 of each element, as far as the bytes can be cut: its zone, or content.
fn zones_in(table: &[u8]) -> impl Iterator<Item = u8> + '_ {
    generator::raw::cut(table).filter_map(|element| element.get(7).copied())
}

/// In reports of 64 bytes, in single bytes, and in pieces of two other sizes.
fn received(table: &[u8], settings: Settings, whole: Verdict) -> Result<(), &'static str> {
    for size in [64, 1, 3 + table.len() % 61, 1 + table.len() / 2] {
        let mut receiver = Receiver::start(settings);
        let taken = table
            .chunks(size)
            .all(|piece| receiver.piece(piece).is_ok());
        if !taken || receiver.end() != whole.into_result() {
            return Err("pieces and the whole differ");
        }
    }
    Ok(())
}

/// Rewritten as the ordinary reader says, against written from its records, and once more.
fn rewritten(table: &[u8], chip: Chip, strict: Verdict) -> Result<(), &'static str> {
    let mut out = vec![0xA5; table.len()];
    let answer = second::rewrite(table, chip, &mut out);
    if answer != strict.into_result().map(|_| table.len()) {
        return Err("reader and rewriter differ");
    }
    if answer.is_err() {
        return Ok(());
    }
    let mut records = vec![0x5A; out.len()];
    if second::rewrite_by_records(table, chip, &mut records).is_err() || records != out {
        return Err("rewritten and written from its records differ");
    }
    let mut again = vec![0x5A; out.len()];
    if second::rewrite(&out, chip, &mut again).is_err() || again != out {
        return Err("rewriting twice changes something");
    }
    Ok(())
}

/// Two tables side by side, by bytes and by records; and no lines exactly when all but reserved places is the same.
fn side_by_side(one: &[u8], two: &[u8], chip: Chip) -> Result<(), &'static str> {
    let lines = second::diff_text(one, two, chip);
    if lines != plain::diff(one, two, chip) {
        return Err("the lines by bytes and by records differ");
    }
    let same = || second::cleared(one) == second::cleared(two);
    if lines.is_ok_and(|lines| lines.is_empty() != same()) {
        return Err("the lines and the tables without reserved places disagree");
    }
    Ok(())
}

/// A trace by numbers in pieces, and by lists and fractions in one.
fn traced(random: &mut Random, table: &[u8], chip: Chip) -> Result<(), &'static str> {
    let good = second::check(table, Settings::from(chip)).number() == 0;
    let trace = match good {
        true => generator::trace(random, table, 30),
        false => Vec::new(),
    };
    match second::trace::output(table, &trace, chip) == plain::trace(table, &trace, chip) {
        true => Ok(()),
        false => Err("the fast and the plain trace differ"),
    }
}

/// What can be saved, by sets and by asking the reader again and again; it is accepted, and saved once more it is the same.
fn saved(file: &[u8], chip: Chip) -> Result<(), &'static str> {
    let saved = second::saved(file, chip);
    let plain = plain::salvage(file, chip).map(|(table, lines)| {
        let text: String = lines.iter().map(Line::to_string).collect();
        (table, text.into_bytes())
    });
    if saved != plain {
        return Err("saved by sets and by asking the reader differ");
    }
    let Ok((table, _)) = saved else {
        return Ok(());
    };
    if second::check(&table, chip.into()).number() != 0 {
        return Err("what was saved is refused");
    }
    match second::saved(&table, chip) == Ok((table, Vec::new())) {
        true => Ok(()),
        false => Err("saving twice changes something"),
    }
}

/// Each element taken out by who names it, against put together without it; and one past the last.
fn removed(table: &[u8], chip: Chip, strict: Verdict) -> Result<(), &'static str> {
    let count = strict.into_result().unwrap_or(0);
    for k in 0..=count {
        let mut lent = table.to_vec();
        let answer = second::remove(&mut lent, k, chip);
        let plain = plain::remove(table, k, chip);
        if plain != answer.map(|length| (length, lent.clone())) {
            return Err("taken out and put together without it differ");
        }
        if answer.is_err() && lent != table {
            return Err("a refusal to take out changes something");
        }
    }
    Ok(())
}

/// There and back as the archive's reader says, and by both forms.
fn moved(table: &[u8], chip: Chip, old: Verdict) -> Result<(), &'static str> {
    let text = second::hex::text(table, second::hex::WRITTEN);
    let mut out = vec![0xA5; text.len()];
    let there = second::hex(table, chip, &mut out);
    if there != old.into_result().map(|_| text.len()) {
        return Err("reader and text in HEX differ");
    }
    if plain::hex(table, chip) != there.map(|_| out) {
        return Err("two texts in HEX differ");
    }
    // More bytes than there are addresses have no text.
    if table.len() > 65_536 {
        return Ok(());
    }
    let mut out = vec![0xA5; table.len()];
    let back = second::unhex(&text, chip, &mut out);
    if back != old.into_result().map(|_| table.len()) || back.is_ok() && out != table {
        return Err("there and back differ");
    }
    if plain::unhex(&text, chip) != back.map(|_| out) {
        return Err("two tables of one text differ");
    }
    Ok(())
}

/// One `T` line of ten fields, then one `E` line of five fields for each element, or of six in the archive.
fn shape(text: &str, count: usize, rules: Rules) -> Result<(), &'static str> {
    let mut lines = text.split_terminator('\n');
    let good = |line: Option<&str>, letter: &str, fields: usize| {
        line.is_some_and(|line| {
            let split: Vec<&str> = line.split('\t').collect();
            split[0] == letter
                && split.len() == fields
                && split
                    .iter()
                    .all(|field| !field.is_empty() && field.is_ascii())
        })
    };
    let first = good(lines.next(), "T", 10);
    let elements: Vec<&str> = lines.collect();
    let rest = elements
        .iter()
        .all(|&line| match line.strip_suffix("\tretired") {
            Some(front) => rules == Rules::Archive && good(Some(front), "E", 5),
            None => good(Some(line), "E", 5),
        });
    let closed = text.ends_with('\n');
    (first && rest && closed && elements.len() == count)
        .then_some(())
        .ok_or("the listing has another shape")
}
