//! Well-formed text, one step a unit.

/// Is it an even number of bytes, with a low surrogate behind each high one and nowhere else?
///
/// No branch but the loop's own: a unit is to be low exactly when the one before it was high.
#[inline(always)]
pub fn well_formed(text: &[u8]) -> bool {
    let units = text.chunks_exact(2);
    let mut bad = !units.remainder().is_empty();
    let mut high = false;
    for unit in units {
        // The six bits that tell surrogates: 110110 is high, 110111 is low.
        let top = unit[1] >> 2;
        bad |= high != (top == 0x37);
        high = top == 0x36;
    }
    !(bad | high)
}

#[cfg(test)]
mod tests {
    use super::well_formed;
    use crate::generator;
    use crate::random::Random;
    use crate::text;

    /// All three say the same: this form, the plain one, and Rust's own decoder.
    fn agree(bytes: &[u8]) -> bool {
        let units = bytes.chunks_exact(2);
        let whole = units.remainder().is_empty();
        let units = units.map(|unit| u16::from_le_bytes([unit[0], unit[1]]));
        let decoded = whole && char::decode_utf16(units).all(|one| one.is_ok());
        assert_eq!(well_formed(bytes), decoded, "{bytes:02X?}");
        assert_eq!(text::well_formed(bytes), decoded, "{bytes:02X?}");
        decoded
    }

    fn bytes(units: &[u16]) -> Vec<u8> {
        units.iter().flat_map(|unit| unit.to_le_bytes()).collect()
    }

    #[test]
    fn every_unit_alone_and_beside_surrogates() {
        let mut good = 0;
        for unit in 0..=u16::MAX {
            good += usize::from(agree(&bytes(&[unit])));
            for other in [0x41, 0xD800, 0xDBFF, 0xDC00, 0xDFFF] {
                agree(&bytes(&[unit, other]));
                agree(&bytes(&[other, unit]));
                agree(&bytes(&[0xD800, unit, other]));
            }
        }
        assert_eq!(good, 65_536 - 2_048);
    }

    #[test]
    fn texts_of_chance() {
        let mut random = Random::new(71);
        let mut counts = [0; 2];
        for _ in 0..50_000 {
            let units = random.below(66);
            let mut text = generator::text(&mut random, units);
            assert!(agree(&text));
            for _ in 0..random.below(3) {
                generator::spoil(&mut random, &mut text);
            }
            counts[usize::from(agree(&text))] += 1;
        }
        assert!(counts.iter().all(|&count| count > 5_000), "{counts:?}");
    }

    #[test]
    fn at_the_ends() {
        for (text, good) in [
            (&[][..], true),
            (&[0x41], false),
            (&[0, 0], true),
            (&[0xFF, 0xFE], true),
            (&[0xFE, 0xFF], true),
            (&[0xFF, 0xFF], true),
            (&[0xFF, 0xD7], true),
            (&[0x00, 0xE0], true),
            (&[0x00, 0xD8], false),
            (&[0x00, 0xDC], false),
            (&[0x00, 0xD8, 0x00, 0xDC], true),
            (&[0xFF, 0xDB, 0xFF, 0xDF], true),
            (&[0x00, 0xDC, 0x00, 0xD8], false),
            (&[0x00, 0xD8, 0x00, 0xDC, 0x41], false),
            (&[0xD8, 0x00, 0xDC, 0x00], true),
        ] {
            assert_eq!(agree(text), good, "{text:02X?}");
        }
    }
}
