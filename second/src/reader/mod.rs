//! The fast reader: the lent bytes are gone through once, without heap and without a copy.
//!
//! The pass takes each element through rules 6 to 12 and 23 and gathers sets of bits: zones and strings
//! declared and named, pins claimed. Rules 13 to 15 are then answered from the sets at once; only
//! a refusal needs a second walk for its place (`places`).

mod blocks;
pub(crate) mod kinds;
pub(crate) mod places;
pub(crate) mod seen;
pub(crate) mod sets;
mod text;

use crate::answer::{number, Verdict, LARGEST_TABLE, MOST_ELEMENTS};
use crate::settings::Settings;
use seen::{Claims, Numbers};
use sets::{Chosen, Pins};

/// What the pass came to: the number of elements, or a refusal with its place.
type Passed = Result<usize, (u8, usize)>;

/// The verdict on a whole table: rules 1 to 15, and 23 behind 9, in the papers' order.
///
/// An entry point for benchmarks; never inlined, so that it is the call that is timed.
#[inline(never)]
pub fn check(table: &[u8], settings: Settings) -> Verdict {
    let Some(head) = table.first_chunk::<16>() else {
        return refused(number::SHORT, 0);
    };
    let strapped = [head[9], head[10], head[11]] != [0xFF; 3];
    let refusal = check_description(head, table.len());
    if refusal != 0 {
        return refused(refusal, 0);
    }
    let chosen = Chosen::of(settings);
    if strapped && bad_hardware(head, chosen.pins) {
        return refused(number::PIN, 0);
    }
    if !strapped && table.len() == 16 {
        return bare(head[4]);
    }
    with_elements(table, head, chosen)
}

#[inline(always)]
fn refused(number: u8, place: usize) -> Verdict {
    Verdict::Refused { number, place }
}

/// 2 to 5; 0 when all are good.
#[inline(always)]
fn check_description(head: &[u8; 16], lent: usize) -> u8 {
    let said = said(head);
    if head[0] != 0x01 {
        number::REVISION
    } else if said != lent || said > LARGEST_TABLE {
        number::LENGTH
    } else {
        type_and_power(head)
    }
}

/// The length that the description says.
#[inline(always)]
pub(crate) fn said(head: &[u8; 16]) -> usize {
    usize::from(u16::from_le_bytes([head[1], head[2]]))
}

/// 4 and 5; 0 when both are good.
#[inline(always)]
pub(crate) fn type_and_power(head: &[u8; 16]) -> u8 {
    if head[3].wrapping_sub(1) > 2 {
        number::DEVICE_TYPE
    } else if matches!(head[8], 126..=127) {
        number::POWER
    } else {
        0
    }
}

/// 10 of the description: a hardware revision pin is used that the chip lacks.
#[inline(always)]
pub(crate) fn bad_hardware(head: &[u8; 16], pins: Pins) -> bool {
    let bad = |&pin: &u8| pin != 0xFF && pins.bit(pin) == 0;
    head[9..12].iter().any(bad)
}

/// The claims before the first element: the fault LED's and the hardware revision pins'.
#[inline(always)]
pub(crate) fn first_claims(head: &[u8; 16], pins: Pins) -> Claims {
    let mut claims = Claims::new();
    for pin in [head[9], head[10], head[11]] {
        claims.alone(pins.bit(pin));
    }
    claims
}

/// A table without elements and without hardware revision pins: only 14 is left.
#[inline(always)]
fn bare(string: u8) -> Verdict {
    if string == 0 {
        Verdict::Accepted(0)
    } else {
        refused(number::NO_STRING, 0)
    }
}

/// The rest, for a table whose description is good.
#[inline(never)]
fn with_elements(table: &[u8], head: &[u8; 16], chosen: Chosen) -> Verdict {
    let claims = first_claims(head, chosen.pins);
    let mut numbers = Numbers::new();
    numbers.strings_named.add(head[4]);
    match pass(table, chosen, &mut numbers, claims) {
        (Ok(count), claims) => finish(table, count, &mut numbers, &claims),
        (Err((number, place)), _) => refused(number, place),
    }
}

/// Identifier and length of the element at the front; `None` where rule 6 is broken.
#[inline(always)]
pub(crate) fn header(rest: &[u8]) -> Option<(u8, usize)> {
    let &[identifier, low, high] = rest.first_chunk()?;
    let length = usize::from(u16::from_le_bytes([low, high]));
    (3..=rest.len())
        .contains(&length)
        .then_some((identifier, length))
}

/// The pass from offset 16, element by element.
#[inline(always)]
fn pass(table: &[u8], chosen: Chosen, numbers: &mut Numbers, claims: Claims) -> (Passed, Claims) {
    let mut claims = claims;
    let mut place = 16;
    let mut count = 0;
    while place < table.len() {
        let rest = &table[place..];
        let Some((identifier, length)) = header(rest) else {
            return (Err((number::HEADER, place)), claims);
        };
        if count == MOST_ELEMENTS {
            return (Err((number::TOO_MANY, place)), claims);
        }
        numbers.note(identifier, rest);
        let refusal = kinds::take(
            identifier,
            &rest[..length],
            rest,
            chosen,
            numbers,
            &mut claims,
        );
        if refusal != 0 {
            return (Err((refusal, place)), claims);
        }
        count += 1;
        place += length;
    }
    (Ok(count), claims)
}

/// 13 over all elements, 14 over the description and all elements, 15 over all claims.
#[inline(always)]
fn finish(table: &[u8], count: usize, numbers: &mut Numbers, claims: &Claims) -> Verdict {
    // Index 0 names no string; no string can be numbered 0, so its bit is free to stand for that.
    numbers.strings.add(0);
    if numbers.zones_named.exceeds(&numbers.zones) {
        refused(number::NO_ZONE, places::zone(table, &numbers.zones))
    } else if numbers.strings_named.exceeds(&numbers.strings) {
        refused(number::NO_STRING, places::string(table, &numbers.strings))
    } else if claims.clash() {
        refused(number::CLASH, places::clash(table))
    } else {
        Verdict::Accepted(count)
    }
}
