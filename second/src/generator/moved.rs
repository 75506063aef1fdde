//! Texts in Intel HEX: of any bytes in records of any length, good, or altered as hands and other programs alter them.

use crate::hex::{record, DATA, END};
use crate::random::Random;

/// Records of other types as other programs write them: addresses over 16 bits, and where to start.
const OTHERS: [&[u8]; 5] = [
    b":020000021000EC",
    b":0400000300003800C1",
    b":020000040000FA",
    b":020000040001F9",
    b":04000005000000CD2A",
];

/// A good text of the bytes, each record as long as it comes; its lines are not closed yet.
fn lines(random: &mut Random, bytes: &[u8]) -> Vec<Vec<u8>> {
    let most = *random.pick(&[1, 2, 16, 17, 32, 128, 255]);
    let mut lines = Vec::new();
    let mut at = 0;
    while at < bytes.len() {
        let each = random.between(1, most).max(bytes.len() / 200).min(255);
        let end = bytes.len().min(at + each);
        lines.push(open(at as u16, DATA, &bytes[at..end]));
        at = end;
    }
    lines.push(open(0, END, &[]));
    lines
}

/// A record without its line feed.
fn open(address: u16, kind: u8, data: &[u8]) -> Vec<u8> {
    let mut line = record(address, kind, data);
    line.pop();
    line
}

/// A text of the bytes, whose addresses must fit into 16 bits, after no mistake, one or two.
pub fn hex_text(random: &mut Random, bytes: &[u8]) -> Vec<u8> {
    let mut lines = lines(random, bytes);
    let mistakes = *random.pick(&[0, 1, 1, 1, 1, 1, 2]);
    let mut closed = true;
    for _ in 0..mistakes {
        match random.below(5) {
            0 => of_lines(random, &mut lines),
            1 => closed = of_the_end(random, &mut lines),
            2 => of_fields(random, &mut lines),
            _ => of_characters(random, &mut lines),
        }
    }
    let mut text = lines.join(&b'\n');
    if closed {
        text.push(b'\n');
    }
    text
}

/// A line twice, lost, empty, of another type or without data; two exchanged; two run together.
fn of_lines(random: &mut Random, lines: &mut Vec<Vec<u8>>) {
    if lines.is_empty() {
        return;
    }
    let at = random.below(lines.len());
    match random.below(7) {
        0 => lines.insert(at, lines[at].clone()),
        1 => drop(lines.remove(at)),
        2 => lines.insert(at, Vec::new()),
        3 => lines.insert(at, random.pick(&OTHERS).to_vec()),
        4 => {
            let other = random.below(lines.len());
            lines.swap(at, other);
        }
        // At the address of the line that it stands before.
        5 => {
            if let Some(bytes) = numbers(&lines[at]) {
                lines.insert(at, printed(&[0, bytes[1], bytes[2], DATA]));
            }
        }
        _ => {
            let line = lines.remove(at);
            let onto = random.below(lines.len() + 1);
            match lines.get_mut(onto) {
                Some(before) => before.extend(line),
                None => lines.push(line),
            }
        }
    }
}

/// The end missing, not closed, not alone, not the last, or with an address; true where the last line is closed.
fn of_the_end(random: &mut Random, lines: &mut Vec<Vec<u8>>) -> bool {
    match random.below(6) {
        0 => drop(lines.pop()),
        1 => return false,
        2 => lines.push(Vec::new()),
        3 => lines.extend(lines.last().cloned()),
        4 => {
            let at = random.below(lines.len() + 1);
            lines.insert(at, open(0, END, &[]));
        }
        _ => {
            lines.pop();
            lines.push(open(random.between(1, 65_535) as u16, END, &[]));
        }
    }
    true
}

/// Another length, address or type, or other data, with a sum that fits.
fn of_fields(random: &mut Random, lines: &mut [Vec<u8>]) {
    let Some(line) = chosen(random, lines) else {
        return;
    };
    let Some(mut bytes) = numbers(line) else {
        return;
    };
    let by = *random.pick(&[1, 2, 16, 255]);
    match random.below(6) {
        0 => bytes[0] = bytes[0].wrapping_add(by),
        1 => bytes[1] = bytes[1].wrapping_add(by),
        2 => bytes[2] = bytes[2].wrapping_add(by),
        3 => bytes[3] = random.between(0, 6) as u8,
        4 => bytes[3] = bytes[3].wrapping_add(by),
        _ => {
            let at = random.below(bytes.len());
            bytes[at] = random.byte();
        }
    }
    *line = printed(&bytes);
}

/// The bytes of a good line but its sum.
fn numbers(line: &[u8]) -> Option<Vec<u8>> {
    let digits = std::str::from_utf8(line.strip_prefix(b":")?).ok()?;
    let byte = |at| u8::from_str_radix(digits.get(at..at + 2)?, 16).ok();
    let mut bytes: Vec<u8> = (0..digits.len())
        .step_by(2)
        .map(byte)
        .collect::<Option<_>>()?;
    bytes.pop();
    (bytes.len() >= 4).then_some(bytes)
}

/// They and their sum as a line.
fn printed(bytes: &[u8]) -> Vec<u8> {
    let sum = bytes.iter().fold(0u8, |sum, &byte| sum.wrapping_sub(byte));
    let digits: String = bytes
        .iter()
        .chain([&sum])
        .map(|byte| format!("{byte:02X}"))
        .collect();
    format!(":{digits}").into_bytes()
}

/// A character altered, taken out or put in; small letters; blanks and carriage returns.
fn of_characters(random: &mut Random, lines: &mut [Vec<u8>]) {
    let Some(line) = chosen(random, lines) else {
        return;
    };
    let at = random.below(line.len() + 1);
    let strange = *random.pick(b"0F:G@/a \t\r\0\xFF");
    match random.below(8) {
        0 | 1 => match line.get_mut(at) {
            Some(byte) => *byte = *random.pick(b"0123456789ABCDEF"),
            None => line.push(b'0'),
        },
        2 => line.truncate(at),
        3 => line.insert(at, strange),
        4 => line.make_ascii_lowercase(),
        5 => line.push(b'\r'),
        6 => match line.get_mut(at) {
            Some(byte) => *byte ^= 1 << random.below(8),
            None => line.push(b' '),
        },
        _ => match line.get_mut(at) {
            Some(byte) => *byte = strange,
            None => line.insert(0, b' '),
        },
    }
}

fn chosen<'l>(random: &mut Random, lines: &'l mut [Vec<u8>]) -> Option<&'l mut Vec<u8>> {
    match lines.len() {
        0 => None,
        count => lines.get_mut(random.below(count)),
    }
}
