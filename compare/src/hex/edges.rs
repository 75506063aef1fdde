//! Texts at the edges of what is taken back: every byte of a line altered, cut, taken out or put in; every type and every length;
//! lines of 521 characters; 65,536 bytes and more.

use super::known::A_TEXT;
use second::generator::raw::{self, TABLE_A};
use second::hex::{record, text, DATA, END};

type Each<'e> = dyn FnMut(&'static str, Vec<u8>) -> Result<(), String> + 'e;

pub fn texts(each: &mut Each) -> Result<(), String> {
    altered(each)?;
    long_lines(each)?;
    fields(each)?;
    large(each)
}

/// The text of table A: each of its bytes as every other, taken out, twice, with a byte before it; cut there.
fn altered(each: &mut Each) -> Result<(), String> {
    let good = A_TEXT.as_bytes();
    for at in 0..good.len() {
        for byte in (0..=255).filter(|&byte| byte != good[at]) {
            let mut text = good.to_vec();
            text[at] = byte;
            each("a byte altered", text)?;
        }
        let (front, rear) = good.split_at(at);
        each("cut", front.to_vec())?;
        each("a byte taken out", [front, &rear[1..]].concat())?;
        for put_in in [rear[0], b'0', b':', b'\n', b'\r', b' ', 0] {
            each("a byte put in", [front, &[put_in], rear].concat())?;
        }
    }
    Ok(())
}

/// A table of 300 bytes in records of 255, 128 and 100: each character as the next digit, as a small one, as a line feed.
fn long_lines(each: &mut Each) -> Result<(), String> {
    let table = raw::table(&[raw::text(1, &[0xAB; 278])]);
    for length in [255, 128, 100] {
        let good = text(&table, length);
        for at in 0..good.len() {
            let next = match good[at] {
                b'F' => b'0',
                b'9' => b'A',
                byte => byte + 1,
            };
            for byte in [next, good[at].to_ascii_lowercase(), b'\n'] {
                let mut text = good.clone();
                text[at] = byte;
                each("a byte of a long line altered", text)?;
            }
        }
    }
    for length in 1..=255 {
        each("records of one length", text(&table, length))?;
    }
    Ok(())
}

/// The line of table A with another length, address or type, and a sum that fits.
fn fields(each: &mut Each) -> Result<(), String> {
    let end = record(0, END, &[]);
    let bytes = [&[16, 0, 0, DATA][..], &TABLE_A].concat();
    for at in 0..4 {
        for other in 0..=255 {
            let mut bytes = bytes.clone();
            bytes[at] = other;
            each("another field", [summed(&bytes), end.clone()].concat())?;
        }
    }
    let first = record(0, DATA, &TABLE_A);
    for at in 0..4 {
        for other in 0..=255 {
            let mut bytes = [0, 0, 0, END];
            bytes[at] = other;
            each("another end", [first.clone(), summed(&bytes)].concat())?;
        }
    }
    for address in (0..=65_535).step_by(257).chain(0..48) {
        let second = record(address, DATA, &TABLE_A);
        each("another address", [&first[..], &second, &end].concat())?;
    }
    Ok(())
}

/// A closed line of these bytes and their sum.
fn summed(bytes: &[u8]) -> Vec<u8> {
    let sum = bytes.iter().fold(0u8, |sum, &byte| sum.wrapping_sub(byte));
    let digits: String = bytes.iter().map(|byte| format!("{byte:02X}")).collect();
    format!(":{digits}{sum:02X}\n").into_bytes()
}

/// Around the last address: it is right once, and none is after 65,536 bytes. Tables they are not, by their first byte or by their
/// length.
fn large(each: &mut Each) -> Result<(), String> {
    for (length, count) in [
        (1, 65_535),
        (1, 65_536),
        (16, 65_536),
        (255, 65_536),
        (255, 65_535),
    ] {
        for first in [0, 1] {
            let mut bytes = vec![0; count];
            bytes[0] = first;
            let good = text(&bytes, length);
            let open = &good[..good.len() - 12];
            each("up to the last address", good.clone())?;
            each("up to the last address, no end", open.to_vec())?;
            for more in [1, 255] {
                let more = record(count as u16, DATA, &vec![0; more]);
                each(
                    "past the last address",
                    [open, &more, &good[good.len() - 12..]].concat(),
                )?;
            }
        }
    }
    // A record that passes the last address, and one more behind it.
    let front = text(&[1; 65_400], 24);
    let front = &front[..front.len() - 12];
    let passing = record(65_400, DATA, &[1; 255]);
    let end = record(0, END, &[]);
    each("across the last address", [front, &passing, &end].concat())?;
    for address in [0, (65_655 - 65_536) as u16, 65_535] {
        let behind = record(address, DATA, &[1]);
        each(
            "behind the last address",
            [front, &passing, &behind, &end].concat(),
        )?;
    }
    each("lines that say nothing", vec![b'\n'; 900_000])?;
    each("one line that says nothing", vec![b'F'; 900_000])
}
