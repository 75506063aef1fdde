//! The text of a string: well-formed UTF-16, low byte first.

/// D800h to DBFFh, the first of a surrogate pair.
fn is_high(unit: u16) -> bool {
    (0xD800..=0xDBFF).contains(&unit)
}

/// DC00h to DFFFh, the second of a surrogate pair.
fn is_low(unit: u16) -> bool {
    (0xDC00..=0xDFFF).contains(&unit)
}

/// An even number of bytes; every high surrogate directly followed by a low one, and no other low one.
///
/// The plain reader and the writer stand on this; the fast reader has its own form of it.
pub fn well_formed(text: &[u8]) -> bool {
    let pairs = text.chunks_exact(2);
    if !pairs.remainder().is_empty() {
        return false;
    }
    let mut units = pairs.map(|pair| u16::from_le_bytes([pair[0], pair[1]]));
    while let Some(unit) = units.next() {
        let good = match unit {
            high if is_high(high) => units.next().is_some_and(is_low),
            other => !is_low(other),
        };
        if !good {
            return false;
        }
    }
    true
}
