//! Rule 9 over text: well-formed UTF-16, low byte first, by the reader and by append.


use crate::common::{gives, with};
use second::generator::raw;
use second::generator::{spoil, text, texts};
use second::random::Random;
use second::record::{Element, Text};
use second::{append, Chip, Refusal, Settings, Verdict};

fn bytes(units: &[u16]) -> Vec<u8> {
    units.iter().flat_map(|unit| unit.to_le_bytes()).collect()
}

/// Appended behind 20 bytes with or without room.
fn appended(part: &[u8], room: usize) -> Result<usize, Refusal> {
    let mut buffer = vec![0xA5; 20 + room];
    buffer[1..3].copy_from_slice(&[20, 0]);
    let before = buffer.clone();
    let answer = append(&mut buffer, Chip::F321, &Element::Text(Text), part);
    assert_eq!(answer.is_err(), buffer == before);
    answer
}

/// Both readers and append take the text, or refuse it with 9.
#[track_caller]
fn judged(text: &[u8], good: bool) {
    let string = raw::text(7, text);
    let table = raw::table(std::slice::from_ref(&string));
    let answer = appended(&string[3..], string.len());
    match good {
        true => {
            gives(&table, 0, 1);
            assert_eq!(answer, Ok(20 + string.len()));
        }
        false => {
            gives(&table, 9, 16);
            assert_eq!(answer, Err(Refusal::at(9, 20)));
        }
    }
}

#[test]
fn the_rows() {
    judged(&[], true);
    judged(&bytes(&[0xD83D]), false);
    judged(&bytes(&[0xDE00]), false);
    judged(&bytes(&[0xD83D, 0xDE00]), true);
    judged(&bytes(&[0xDE00, 0xD83D]), false);
    judged(&bytes(&[0x41, 0xD83D]), false);
    judged(&bytes(&[0xD83D, 0x41]), false);
    judged(&bytes(&[0xD83D, 0xD83D, 0xDE00]), false);
    judged(&bytes(&[0xD83D, 0xDE00, 0xDE00]), false);
    judged(&bytes(&[0xD83D, 0xDE00, 0xD83D, 0xDE00]), true);
    judged(&[0x41], false);
    judged(&[0x41, 0, 0x42], false);
    for unit in [0x0000, 0xD7FF, 0xE000, 0xFEFF, 0xFFFE, 0xFFFF] {
        judged(&bytes(&[unit]), true);
    }
    for unit in [0xD800, 0xDBFF, 0xDC00, 0xDFFF] {
        judged(&bytes(&[unit]), false);
    }
    // Low byte first: 41D8h is a letter.
    judged(&[0xD8, 0x41], true);
    judged(&[0x41, 0xD8], false);
    // 64 bytes are no bound.
    judged(&bytes(&[0x41; 33]), true);
    judged(&bytes(&[0x41; 500]), true);
}

/// The locale before the text is no text.
#[test]
fn the_text_starts_at_byte_6() {
    let string = with(&[(4, 0x00), (5, 0xD8)], raw::text(7, &bytes(&[0x41])));
    gives(&raw::table(&[string]), 0, 1);
    let string = with(&[(4, 0x3D), (5, 0xD8)], raw::text(7, &bytes(&[0xDE00])));
    gives(&raw::table(&[string]), 9, 16);
}

#[test]
fn where_it_stands() {
    let bad = |number| raw::text(number, &bytes(&[0xD800]));
    let good = |number| raw::text(number, &bytes(&[0x41]));
    // 3 to 5 bytes are 8.
    for length in 3..6 {
        gives(
            &raw::table(&[raw::element(0x0C, &vec![7; length - 3])]),
            8,
            16,
        );
    }
    gives(&raw::table(&[bad(0)]), 9, 16);
    gives(&raw::table(&[good(7), bad(7)]), 9, 24);
    gives(&raw::table(&[good(7), good(7)]), 12, 24);
    gives(&raw::table(&[raw::zone(1, 9), bad(7)]), 9, 46);
    gives(
        &raw::table(&[raw::zone(1, 0), raw::zone(1, 0), bad(7)]),
        12,
        46,
    );
    let mut elements: Vec<Vec<u8>> = (1..=96).map(good).collect();
    elements.push(bad(97));
    gives(&raw::table(&elements), 11, 16 + 96 * 8);
    // append: 8, then 9 at the length so far, then 16.
    assert_eq!(appended(&[7, 9], 60), Err(Refusal::at(8, 20)));
    assert_eq!(appended(&bad(7)[3..], 0), Err(Refusal::at(9, 20)));
    assert_eq!(appended(&good(7)[3..], 0), Err(Refusal::at(16, 0)));
}

/// Against Rust's own decoder: texts of chance, well-formed and not.
#[test]
fn as_decoded_by_another() {
    let mut random = Random::new(72);
    let mut counts = [0; 2];
    for _ in 0..10_000 {
        let units = random.below(70);
        let mut text = text(&mut random, units);
        for _ in 0..random.below(3) {
            spoil(&mut random, &mut text);
        }
        let units = text.chunks_exact(2);
        let whole = units.remainder().is_empty();
        let units = units.map(|unit| u16::from_le_bytes([unit[0], unit[1]]));
        let decoded = whole && char::decode_utf16(units).all(|one| one.is_ok());
        judged(&text, decoded);
        counts[usize::from(decoded)] += 1;
    }
    assert!(counts.iter().all(|&count| count > 2_000), "{counts:?}");
}

#[test]
fn tables_of_text() {
    let mut random = Random::new(73);
    for at in 0..500 {
        let settings = Settings::ALL[at % 4];
        let table = texts(&mut random, settings);
        assert_eq!(table.len(), 4_096);
        let verdict = second::check(&table, settings);
        assert!(matches!(verdict, Verdict::Accepted(31..=60)), "{verdict:?}");
        for (_, bytes) in second::access::walk(&table) {
            assert_eq!(bytes[0], 0x0C);
            assert!(bytes.len() <= 6 + 128);
        }
    }
}
