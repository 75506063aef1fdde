//! Texts, well-formed and not, against a decoder that is neither side's: Rust's own.

use crate::answer::Answer;
use crate::call::Call;
use crate::known::Row;
use second::generator::{raw, spoil, text};
use second::random::Random;
use second::Settings;

const SEED: u64 = 16;
/// Texts of chance; those of three units or fewer come in addition.
const OF_CHANCE: usize = 2_000;
/// The ends of the surrogates and what stands beside them.
const UNITS: [u16; 10] = [
    0x0000, 0x0041, 0xD7FF, 0xD800, 0xDBFF, 0xDC00, 0xDFFF, 0xE000, 0xFFFE, 0xFFFF,
];

/// Tables of one string, held to what the decoder says of its text.
pub fn rows() -> impl Iterator<Item = Row> {
    let mut texts: Vec<Vec<u8>> = Vec::new();
    for one in UNITS {
        texts.push(bytes(&[one]));
        for two in UNITS {
            texts.push(bytes(&[one, two]));
            texts.extend(UNITS.map(|three| bytes(&[one, two, three])));
        }
    }
    let mut random = Random::new(SEED);
    for _ in 0..OF_CHANCE {
        let units = random.below(66);
        let mut one = text(&mut random, units);
        for _ in 0..random.below(3) {
            spoil(&mut random, &mut one);
        }
        texts.push(one);
    }
    let rows = texts.into_iter().enumerate();
    rows.map(|(at, text)| row(Settings::ALL[at % 4], &text))
}

fn bytes(units: &[u16]) -> Vec<u8> {
    units.iter().flat_map(|unit| unit.to_le_bytes()).collect()
}

fn row(settings: Settings, text: &[u8]) -> Row {
    Row {
        name: "a text, as Rust decodes it",
        settings,
        table: raw::table(&[raw::text(7, text)]),
        call: Call::Check,
        answer: match decodes(text) {
            true => Answer::of(0, 1),
            false => Answer::of(9, 16),
        },
    }
}

fn decodes(text: &[u8]) -> bool {
    let units = text.chunks_exact(2);
    let whole = units.remainder().is_empty();
    let units = units.map(|unit| u16::from_le_bytes([unit[0], unit[1]]));
    whole && char::decode_utf16(units).all(|one| one.is_ok())
}

#[cfg(test)]
mod tests {
    use crate::settings::reading;

    /// Needs no driver: the second program alone is held to the decoder.
    #[test]
    fn the_second_program_says_what_the_decoder_says() {
        let mut counts = [0; 2];
        for row in super::rows() {
            let second = row.call.second(&row.table, reading(row.settings, 0));
            assert_eq!(second.answer, row.answer, "{:02X?}", row.table);
            counts[usize::from(row.answer.number() == 0)] += 1;
        }
        assert!(counts.iter().all(|&count| count > 500), "{counts:?}");
    }
}
