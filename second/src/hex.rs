//! Intel HEX: a raw table as the text that a programmer takes, and back. Bytes go along as they stand, and the table
//! is judged by the archive's rules.

use crate::answer::{number, Refusal};
use crate::reader::check;
use crate::settings::{Chip, Rules, Settings};

/// Bytes of a data record that is written; the last one may have fewer.
pub const WRITTEN: usize = 16;
/// The text of a table of 4,096 bytes: 256 lines of 44 characters, and the end record.
pub const LONGEST_TEXT: usize = 256 * 44 + 12;
/// The types of the two records that are taken.
pub const DATA: u8 = 0;
pub const END: u8 = 1;

/// Puts the text of the accepted table at the front of `out` and gives its length; or the reader's refusal; or 16
/// when it does not fit. A refusal changes no byte of `out`.
pub fn hex(table: &[u8], chip: Chip, out: &mut [u8]) -> Result<usize, Refusal> {
    check_table(table, chip)?;
    put(&text(table, WRITTEN), out)
}

/// The same from a text to its table: 21 with the first bad line, then the table's own refusal, then 16.
pub fn unhex(text: &[u8], chip: Chip, out: &mut [u8]) -> Result<usize, Refusal> {
    let table = bytes(text).map_err(|line| Refusal::at(number::HEX, line))?;
    check_table(&table, chip)?;
    put(&table, out)
}

fn check_table(table: &[u8], chip: Chip) -> Result<(), Refusal> {
    check(table, Settings::new(chip, Rules::Archive)).into_result()?;
    Ok(())
}

fn put(bytes: &[u8], out: &mut [u8]) -> Result<usize, Refusal> {
    let Some(front) = out.get_mut(..bytes.len()) else {
        return Err(Refusal::at(number::NO_ROOM, 0));
    };
    front.copy_from_slice(bytes);
    Ok(bytes.len())
}

/// The text of any bytes, in data records of so many bytes each from address 0, and the end record.
pub fn text(bytes: &[u8], each: usize) -> Vec<u8> {
    let mut text = Vec::new();
    for (address, data) in (0..).step_by(each).zip(bytes.chunks(each)) {
        text.extend(record(address as u16, DATA, data));
    }
    text.extend(record(0, END, &[]));
    text
}

/// One record as its line, closed: colon, length, address (high byte first), type, data, sum.
pub fn record(address: u16, kind: u8, data: &[u8]) -> Vec<u8> {
    let [high, low] = address.to_be_bytes();
    let front = [data.len() as u8, high, low, kind];
    let last = sum(&front).wrapping_add(sum(data)).wrapping_neg();
    let mut line = vec![b':'];
    for &byte in front.iter().chain(data).chain([&last]) {
        line.extend([byte >> 4, byte & 0x0F].map(digit));
    }
    line.push(b'\n');
    line
}

fn digit(value: u8) -> u8 {
    b"0123456789ABCDEF"[usize::from(value)]
}

/// In 8 bits; with the sum that ends a record, 0.
fn sum(bytes: &[u8]) -> u8 {
    bytes.iter().fold(0, |sum, &byte| sum.wrapping_add(byte))
}

/// The bytes that a text holds, or the number of its first bad line. Where the lines end without an end record, that is
/// the number of the line that is missing, or of the one that is not closed.
pub fn bytes(text: &[u8]) -> Result<Vec<u8>, usize> {
    let mut bytes = Vec::new();
    let mut rest = text;
    let mut line = 1;
    loop {
        let (record, behind) = cut(rest).ok_or(line)?;
        if record == b":00000001FF" {
            return match behind {
                [] => Ok(bytes),
                _ => Err(line + 1),
            };
        }
        let data = data(record, bytes.len()).ok_or(line)?;
        bytes.extend(data);
        rest = behind;
        line += 1;
    }
}

/// The first line without its line feed, and what stands behind it; `None` where no line feed is left.
fn cut(text: &[u8]) -> Option<(&[u8], &[u8])> {
    let end = text.iter().position(|&byte| byte == b'\n')?;
    Some((&text[..end], &text[end + 1..]))
}

/// The data of a good data record at this address.
fn data(record: &[u8], address: usize) -> Option<Vec<u8>> {
    let bytes = pairs(record.strip_prefix(b":")?)?;
    let [length, high, low, kind, ref data @ .., _] = bytes[..] else {
        return None;
    };
    let good = kind == DATA
        && length != 0
        && usize::from(length) == data.len()
        && usize::from(u16::from_be_bytes([high, low])) == address
        && sum(&bytes) == 0;
    good.then(|| data.to_vec())
}

/// Pairs of capital hex digits as bytes.
fn pairs(digits: &[u8]) -> Option<Vec<u8>> {
    let pair = |pair: &[u8]| match *pair {
        [high, low] => Some(16 * value(high)? + value(low)?),
        _ => None,
    };
    digits.chunks(2).map(pair).collect()
}

fn value(digit: u8) -> Option<u8> {
    match digit {
        b'0'..=b'9' => Some(digit - b'0'),
        b'A'..=b'F' => Some(digit - b'A' + 10),
        _ => None,
    }
}
