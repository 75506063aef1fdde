//! Intel HEX once more, out of numbers printed in hex: a line is good when its bytes, printed again, give that line.

use crate::answer::{number, Refusal};
use crate::settings::{Chip, Rules, Settings};

const END: &[u8] = b":00000001FF";

/// The text of an accepted table, or the table's refusal.
pub fn hex(table: &[u8], chip: Chip) -> Result<Vec<u8>, Refusal> {
    super::elements(table, Settings::new(chip, Rules::Archive))?;
    let mut text = String::new();
    for start in (0..table.len()).step_by(16) {
        let end = table.len().min(start + 16);
        text += &line(start, &table[start..end]);
        text += "\n";
    }
    text += ":00000001FF\n";
    Ok(text.into_bytes())
}

/// The table of a text, or 21 with the first bad line, or the table's refusal.
pub fn unhex(text: &[u8], chip: Chip) -> Result<Vec<u8>, Refusal> {
    let table = bytes(text).map_err(|line| Refusal::at(number::HEX, line))?;
    super::elements(&table, Settings::new(chip, Rules::Archive))?;
    Ok(table)
}

/// A data record without its line feed.
fn line(address: usize, data: &[u8]) -> String {
    let mut sum = data.len() + address / 256 + address % 256;
    let mut line = format!(":{:02X}{:04X}00", data.len(), address);
    for &byte in data {
        sum += usize::from(byte);
        line += &format!("{byte:02X}");
    }
    line + &format!("{:02X}", (256 - sum % 256) % 256)
}

/// All lines up to the first end record are data; it must be there, and the text must end with it.
fn bytes(text: &[u8]) -> Result<Vec<u8>, usize> {
    let mut lines: Vec<&[u8]> = text.split(|&byte| byte == b'\n').collect();
    let unclosed = lines.pop().unwrap_or_default();
    let end = lines.iter().position(|&line| line == END);
    let mut bytes = Vec::new();
    for (at, record) in lines.iter().take(end.unwrap_or(lines.len())).enumerate() {
        bytes.extend(data(record, bytes.len()).ok_or(at + 1)?);
    }
    match end {
        None => Err(lines.len() + 1),
        Some(at) if at + 1 < lines.len() || !unclosed.is_empty() => Err(at + 2),
        Some(_) => Ok(bytes),
    }
}

/// As many bytes as the line is long enough for.
fn data(record: &[u8], address: usize) -> Option<Vec<u8>> {
    let text = std::str::from_utf8(record).ok()?;
    let count = text.len().checked_sub(11)? / 2;
    let byte = |at| u8::from_str_radix(text.get(9 + 2 * at..11 + 2 * at)?, 16).ok();
    let data: Vec<u8> = (0..count).map(byte).collect::<Option<_>>()?;
    let good = (1..=255).contains(&count) && address < 65_536 && line(address, &data) == text;
    good.then_some(data)
}
