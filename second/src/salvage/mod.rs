//! Saving what can be saved of a damaged table: the elements that keep the rules, in their order, as a table that the
//! reader accepts; and a line for each that is left out or cleared. The rules are the ordinary ones, as of all that writes.
//!
//! One pass over the bytes keeps and leaves out, and gathers the reader's sets. Only where a set says so the marks of those
//! kept are gone over once more, for 13, for 14 and for 15. What is left is copied, and its reserved places cleared.

mod lines;
mod marks;

use crate::answer::{number, Refusal, LARGEST_TABLE};
use crate::element::id;
use crate::reader::seen::{Claims, Numbers};
use crate::reader::sets::{Chosen, NumberSet};
use crate::reader::{bad_hardware, first_claims, header, kinds, places, type_and_power};
use crate::rewrite::clear;
use crate::settings::Chip;
use lines::Text;
use marks::{index_at, Marks};

pub use lines::{Change, Line, SALVAGE_LINES};

/// How long the new table is, and the text of the lines.
#[derive(Clone, Copy, Debug, PartialEq, Eq)]
pub struct Saved {
    pub table: usize,
    pub lines: usize,
}

/// Puts the new table at the front of `out` and the lines at the front of `lines`; or 24 at 0 when the description cannot be
/// saved; or 16 at 0 when `out` is shorter than the new table. A refusal changes no byte of either. Of the file the first
/// 4,096 bytes are looked at, and what they say of their length is not.
///
/// An entry point for benchmarks, and never inlined for that reason.
#[inline(never)]
pub fn salvage(
    file: &[u8],
    chip: Chip,
    out: &mut [u8],
    lines: &mut [u8; SALVAGE_LINES],
) -> Result<Saved, Refusal> {
    let file = &file[..file.len().min(LARGEST_TABLE)];
    let chosen = Chosen::of(chip.into());
    let (head, claims) = described(file, chosen).ok_or(Refusal::at(number::NO_DESCRIPTION, 0))?;
    // No more comes out than went in.
    if out.len() < file.len() {
        return into_less_room(file, head, chosen, claims, out, lines);
    }
    Ok(save(file, head, chosen, claims, out, lines))
}

/// Table and lines on their own.
pub fn saved(file: &[u8], chip: Chip) -> Result<(Vec<u8>, Vec<u8>), Refusal> {
    let mut table = vec![0; LARGEST_TABLE];
    let mut lines = [0; SALVAGE_LINES];
    let saved = salvage(file, chip, &mut table, &mut lines)?;
    table.truncate(saved.table);
    Ok((table, lines[..saved.lines].to_vec()))
}

/// The description and its claims with the fault LED's, unless it answers 1, 2, 4, 5 or 10, or these claims clash.
fn described(file: &[u8], chosen: Chosen) -> Option<(&[u8; 16], Claims)> {
    let head = file.first_chunk::<16>()?;
    let claims = first_claims(head, chosen.pins);
    let good = head[0] == 0x01
        && type_and_power(head) == 0
        && !bad_hardware(head, chosen.pins)
        && !claims.clash();
    good.then_some((head, claims))
}

/// Whether it fits is known when all is decided, so that it is put elsewhere first.
#[cold]
fn into_less_room(
    file: &[u8],
    head: &[u8; 16],
    chosen: Chosen,
    claims: Claims,
    out: &mut [u8],
    lines: &mut [u8; SALVAGE_LINES],
) -> Result<Saved, Refusal> {
    let mut table = [0; LARGEST_TABLE];
    let mut text = [0; SALVAGE_LINES];
    let saved = save(file, head, chosen, claims, &mut table, &mut text);
    let Some(front) = out.get_mut(..saved.table) else {
        return Err(Refusal::at(number::NO_ROOM, 0));
    };
    front.copy_from_slice(&table[..saved.table]);
    lines[..saved.lines].copy_from_slice(&text[..saved.lines]);
    Ok(saved)
}

/// `out` is no shorter than the file.
fn save(
    file: &[u8],
    head: &[u8; 16],
    chosen: Chosen,
    claims: Claims,
    out: &mut [u8],
    lines: &mut [u8; SALVAGE_LINES],
) -> Saved {
    let mut marks = Marks::new();
    let mut text = Text::new(lines);
    let mut numbers = Numbers::new();
    numbers.strings_named.add(head[4]);
    let claims = pass(file, chosen, claims, &mut numbers, &mut marks, &mut text);
    // Index 0 names no string.
    numbers.strings.add(0);
    if numbers.zones_named.exceeds(&numbers.zones) {
        leave_out_zoneless(file, &numbers.zones, &mut marks, &mut text);
    }
    let unnamed = !numbers.strings.has(head[4]);
    if numbers.strings_named.exceeds(&numbers.strings) {
        clear_indexes(file, &numbers.strings, &mut marks, &mut text);
    }
    if claims.clash() {
        leave_out_clashing(file, &mut marks, &mut text);
    }
    let table = marks.put(file, out);
    if unnamed {
        out[4] = 0;
    }
    out[1..3].copy_from_slice(&(table as u16).to_le_bytes());
    clear(&mut out[..table]);
    Saved {
        table,
        lines: text.length,
    }
}

/// Each element from offset 16 is kept, or left out with its number, against those kept so far; up to a 6, or until 96 are
/// kept. Gives the claims of those kept.
#[inline(always)]
fn pass(
    file: &[u8],
    chosen: Chosen,
    mut claims: Claims,
    numbers: &mut Numbers,
    marks: &mut Marks,
    text: &mut Text,
) -> Claims {
    let mut place = 16;
    while !marks.full() {
        let rest = &file[place..];
        let Some((identifier, length)) = header(rest) else {
            break;
        };
        let zones = numbers.zone_count;
        let element = &rest[..length];
        let refusal = kinds::take(identifier, element, rest, chosen, numbers, &mut claims);
        if refusal == 0 {
            numbers.note(identifier, rest);
            marks.keep(place);
        } else {
            // A zone whose number is repeated was counted, and is not kept.
            numbers.zone_count = zones;
            text.left_out(place, refusal);
        }
        place += length;
    }
    claims
}

/// 13: those in a zone that no descriptor kept declares.
#[cold]
fn leave_out_zoneless(file: &[u8], declared: &NumberSet, marks: &mut Marks, text: &mut Text) {
    marks.leave_out(file, |place, e| {
        let falls = !matches!(e[0], id::ZONE | id::TEXT) && !declared.has(e[7]);
        if falls {
            text.left_out(place, number::NO_ZONE);
        }
        falls
    });
}

/// 14: string indexes without a string, the description's first.
#[cold]
fn clear_indexes(file: &[u8], declared: &NumberSet, marks: &mut Marks, text: &mut Text) {
    if !declared.has(file[4]) {
        text.cleared(0, number::NO_STRING);
    }
    marks.clear(file, |place, e| {
        let missing = e[0] != id::TEXT && !declared.has(e[index_at(e[0])]);
        if missing {
            text.cleared(place, number::NO_STRING);
        }
        missing
    });
}

/// 15: those with a claim that clashes. Their claims are forgotten, and their pins free for later ones.
#[cold]
fn leave_out_clashing(file: &[u8], marks: &mut Marks, text: &mut Text) {
    let mut claims = places::Claims::new();
    claims.alone([file[9], file[10], file[11]]);
    marks.leave_out(file, |place, e| {
        let before = claims;
        let clashes = claims.element(e);
        if clashes {
            claims = before;
            text.left_out(place, number::CLASH);
        }
        clashes
    });
}
