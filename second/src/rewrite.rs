//! An accepted table with its reserved places at zero, in a lent buffer: a copy, and one walk over it; and
//! the same end reached from its records. The rules are the ordinary ones: nothing writes block mode.

use crate::access::walk;
use crate::answer::{number, Refusal};
use crate::element::{id, read_description, read_element};
use crate::reader::check;
use crate::settings::Chip;
use crate::writer::{append, start};

/// Puts the accepted table at the front of `out`, its reserved places at zero, and gives its length;
/// or the reader's refusal; or 16 when `out` is shorter than the table. A refusal changes no byte of
/// `out`.
///
/// An entry point for benchmarks, and never inlined for that reason.
#[inline(never)]
pub fn rewrite(table: &[u8], chip: Chip, out: &mut [u8]) -> Result<usize, Refusal> {
    check(table, chip.into()).into_result()?;
    let Some(out) = out.get_mut(..table.len()) else {
        return Err(Refusal::at(number::NO_ROOM, 0));
    };
    out.copy_from_slice(table);
    clear(out);
    Ok(table.len())
}

/// The same from the table's records, by start and append. No place is cleared: the layout has zeros there.
#[inline(never)]
pub fn rewrite_by_records(table: &[u8], chip: Chip, out: &mut [u8]) -> Result<usize, Refusal> {
    check(table, chip.into()).into_result()?;
    if out.len() < table.len() {
        return Err(Refusal::at(number::NO_ROOM, 0));
    }
    let mut length = start(out, chip, &read_description(table, chip))?;
    for (_, bytes) in walk(table) {
        let (record, part) =
            read_element(bytes, chip).ok_or(Refusal::at(number::LAYOUT, length))?;
        length = append(out, chip, &record, part)?;
    }
    Ok(length)
}

/// A copy of the accepted table, its reserved places at zero. Only for tables that the reader accepts.
pub fn cleared(table: &[u8]) -> Vec<u8> {
    let mut bytes = table.to_vec();
    clear(&mut bytes);
    bytes
}

/// The same in its own place.
pub(crate) fn clear(table: &mut [u8]) {
    table[12..16].fill(0);
    let mut place = 16;
    // A kind with reserved places has 14 bytes or more, and none of them behind byte 11.
    while let Some(e) = table[place..].first_chunk_mut::<12>() {
        place += usize::from(u16::from_le_bytes([e[1], e[2]]));
        let under_spi = usize::from(e[8] & 0x0F == 3);
        let kept = KEPT[usize::from(e[0] & 0x0F)][under_spi];
        for (byte, mask) in e[8..].iter_mut().zip(kept) {
            *byte &= mask;
        }
    }
}

/// What stays of bytes 8 to 11, by identifier; first under another bus than SPI, then under SPI. It is
/// looked up and not branched on, as the kind is hard to foretell. Strings and zones keep all.
static KEPT: [[[u8; 4]; 2]; 16] = kept();

const fn kept() -> [[[u8; 4]; 2]; 16] {
    let mut kept = [[[0xFF; 4]; 2]; 16];
    kept[id::DIGITAL_SENSOR as usize] = [[0x0F, 0xFE, 0, 0xFF], [0x0F, 0xFF, 0, 0xFF]];
    kept[id::CONTROLLER as usize] = kept[id::DIGITAL_SENSOR as usize];
    kept[id::EXTERNAL_RGB as usize] = kept[id::DIGITAL_SENSOR as usize];
    kept[id::TACHOMETER as usize] = [[0x0F, 0xFE, 0, 0], [0x0F, 0xFF, 0, 0]];
    kept[id::ANALOGUE_SENSOR as usize] = [[0x0F, 0xFF, 0xFF, 0xFF]; 2];
    kept[id::CURRENT as usize] = [[0xFF, 0, 0xFF, 0xFF]; 2];
    kept
}
