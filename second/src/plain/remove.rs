//! Taking a part out once more, without a thought of who names whom: the table is put together without the
//! element, and the reader asked.

use super::{check, elements};
use crate::answer::{number, Refusal, Verdict};
use crate::settings::{Chip, Settings};

/// The new length, and all lent bytes as they are left; or the refusal. 22 when the reader refuses what is put
/// together.
pub fn remove(table: &[u8], k: usize, chip: Chip) -> Result<(usize, Vec<u8>), Refusal> {
    let settings = Settings::from(chip);
    let found = elements(table, settings)?;
    let one = found.get(k).ok_or(Refusal::at(number::PAST_LAST, 0))?;
    let next = found.get(k + 1).map_or(table.len(), |next| next.place);
    let mut closed = [&table[..one.place], &table[next..]].concat();
    let length = closed.len();
    closed[1] = (length % 256) as u8;
    closed[2] = (length / 256) as u8;
    if let Verdict::Refused { .. } = check(&closed, settings) {
        return Err(Refusal::at(number::STILL_NAMED, one.place));
    }
    closed.extend_from_slice(&table[length..]);
    Ok((length, closed))
}
