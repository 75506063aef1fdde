//! The blocks of 09h, 0Ah and 0Dh, counted out over the bytes.

use crate::answer::number;
use std::hint::select_unpredictable;

/// One to six blocks fill the element from byte 11 exactly (8), and none has ENTRIES 0 (9).
///
/// Always six steps, for the number of blocks is hard to foretell and a step that stands still
/// costs less than a wrong guess. Each step reads an ENTRIES byte; standing at the end, it reads
/// the low length byte of the element that follows in `rest`, hardly ever 0. A block cut short
/// steps past the end and so never meets it. Where there is nothing to read, or a 0, the slow walk
/// decides.
#[inline(always)]
pub fn speed_blocks(element: &[u8], rest: &[u8]) -> u8 {
    // Where the ENTRIES byte of one more block would stand.
    let end = element.len() + 1;
    let mut at = 12;
    for _ in 0..6 {
        match rest.get(at) {
            None | Some(0) => return speed_blocks_slowly(element),
            Some(&entries) => {
                let next = at + 2 + 4 * usize::from(entries);
                at = select_unpredictable(at < end, next, at);
            }
        }
    }
    if at == end {
        0
    } else {
        number::LAYOUT
    }
}

/// The same block by block, for the last element of a table and for those with ENTRIES 0.
#[cold]
fn speed_blocks_slowly(element: &[u8]) -> u8 {
    let mut at = 11;
    let mut blocks = 0;
    let mut empty = false;
    while at != element.len() {
        let Some(&entries) = element.get(at + 1) else {
            return number::LAYOUT;
        };
        empty |= entries == 0;
        at += 2 + 4 * usize::from(entries);
        blocks += 1;
    }
    if blocks == 0 || blocks > 6 {
        number::LAYOUT
    } else if empty {
        number::CODE
    } else {
        0
    }
}

/// So many blocks of one ENTRIES byte and its pairs fill the part exactly.
#[inline(always)]
pub fn register_blocks<const COUNT: usize>(part: &[u8]) -> bool {
    let mut at = 0;
    for _ in 0..COUNT {
        let Some(&entries) = part.get(at) else {
            return false;
        };
        at += 1 + 4 * usize::from(entries);
    }
    at == part.len()
}
