//! Calls at the edges of sizes, lengths, room and identifiers: 1, 3, 16 and 7; and onto tables that the reader then refuses.

use super::call::WriterCall;
use super::samples::{description, elements, junk, Sink};
use crate::settings::writing;
use second::element::id;
use second::generator::raw;
use second::Chip;

pub fn calls(chip: Chip, to: Sink) -> Result<(), String> {
    sizes(chip, to)?;
    lengths(chip, to)?;
    room(chip, to)?;
    onto_tables(chip, to)?;
    unknown(chip, to)
}

/// 1: buffers of 0 to 20 bytes, beside good records and bad ones.
fn sizes(chip: Chip, to: Sink) -> Result<(), String> {
    for size in 0..=20 {
        for numbers in [description(chip), [0xFF; 32], [0; 32]] {
            to(WriterCall::start(
                writing(chip, size as u64),
                numbers,
                junk(size, 16),
            ))?;
        }
        for sample in elements(chip) {
            to(sample.call(junk(size, 16)))?;
            to(WriterCall::append(
                sample.id,
                writing(chip, size as u64),
                [0xFF; 32],
                vec![0; 9],
                junk(size, 16),
            ))?;
        }
    }
    Ok(())
}

/// 3: what bytes 1-2 say, in buffers of many sizes.
fn lengths(chip: Chip, to: Sink) -> Result<(), String> {
    for size in [
        16, 17, 64, 300, 4_095, 4_096, 4_097, 4_200, 65_535, 65_536, 65_552, 70_000,
    ] {
        let said = [
            0,
            1,
            15,
            16,
            17,
            255,
            256,
            4_095,
            4_096,
            4_097,
            65_535,
            size - 1,
            size,
            size + 1,
        ];
        for said in said {
            for sample in elements(chip) {
                to(sample.call(junk(size, said)))?;
            }
            to(WriterCall::append(
                id::FAN,
                writing(chip, said as u64),
                [0xFF; 32],
                vec![1],
                junk(size, said),
            ))?;
        }
    }
    Ok(())
}

/// 16: room exactly there, one byte short, one more, and the same at 4,096.
fn room(chip: Chip, to: Sink) -> Result<(), String> {
    for sample in elements(chip) {
        let needed = sample.needed();
        let largest = 4_096 - needed;
        for so_far in [16, 17, 100, largest - 1, largest, largest + 1, 4_095, 4_096] {
            let new_length = so_far + needed;
            for size in [
                so_far,
                new_length - 1,
                new_length,
                new_length + 1,
                4_096,
                4_097,
                5_000,
                70_000,
            ] {
                to(sample.call(junk(size, so_far)))?;
            }
        }
    }
    Ok(())
}

/// append looks at bytes 1-2 only: a fan before the first, a pin twice, a zone that is not there, a number again, a 97th
/// element and a 13th zone are the reader's, as is another revision.
fn onto_tables(chip: Chip, to: Sink) -> Result<(), String> {
    let last_pins = vec![raw::fan(1, 0x12, 0x13), raw::led(1, [0x14, 0x02, 0x30])];
    let strings = (1..=96).map(|number| raw::text(number, &[])).collect();
    let zones = (1..=12).map(|number| raw::zone(number, 0)).collect();
    for standing in [last_pins, strings, zones] {
        for revision in [0x01, 0x10] {
            let mut table = raw::table(&standing);
            table[0] = revision;
            for sample in elements(chip) {
                let mut buffer = table.clone();
                buffer.resize(table.len() + sample.needed() + 1, 0xA5);
                to(sample.call(buffer))?;
            }
        }
    }
    Ok(())
}

/// Identifiers of no kind: 7, whatever else there is.
fn unknown(chip: Chip, to: Sink) -> Result<(), String> {
    for id in (0..=255).filter(|id| !id::ALL.contains(id)) {
        for size in [0, 2, 15, 16, 100] {
            let settings = writing(chip, id.into());
            let bare = junk(size, 16);
            to(WriterCall::append(id, settings, [0; 32], Vec::new(), bare))?;
            to(WriterCall::append(
                id,
                settings,
                [0xFF; 32],
                vec![1; 27],
                junk(size, 4_097),
            ))?;
        }
    }
    Ok(())
}
