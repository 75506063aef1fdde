//! However a table is cut, the end answers as the check of the whole does.

mod common;

use esa::{check, Chip, Receiving, Rule, Settings};

fn received(table: &[u8], size: usize, settings: Settings) -> Result<usize, esa::Refusal> {
    let mut receiving = Receiving::start(settings);
    for piece in table.chunks(size) {
        receiving.piece(piece).unwrap();
    }
    receiving.end()
}

#[test]
fn pieces_of_one_size_are_the_whole() {
    for name in common::names() {
        let table = common::table(&name);
        for settings in [Settings::default(), Settings::ordinary(Chip::C8051F321), Settings::archive(Chip::C8051F320)] {
            for size in [1, 2, 3, 7, 64, 4096] {
                assert_eq!(received(&table, size, settings), check(&table, settings), "{name} by {size}");
            }
        }
    }
}

#[test]
fn two_pieces_are_the_whole_wherever_they_meet() {
    let table = common::table("every-kind");
    for cut in 0..=table.len() {
        let mut receiving = Receiving::start(Settings::default());
        receiving.piece(&table[..cut]).unwrap();
        receiving.piece(&[]).unwrap();
        receiving.piece(&table[cut..]).unwrap();
        assert_eq!(receiving.end(), Ok(14), "cut at {cut}");
    }
}

#[test]
fn a_copy_goes_on_by_itself() {
    let table = common::table("quiet-box");
    let mut one = Receiving::start(Settings::default());
    one.piece(&table[..100]).unwrap();
    let mut two = one.clone();
    one.piece(&table[100..]).unwrap();
    assert_eq!(one.end(), Ok(15));
    assert_eq!(two.end().unwrap_err().rule, Rule::TableLength);
}

#[test]
fn nothing_is_taken_after_the_end() {
    let mut receiving = Receiving::start(Settings::default());
    assert_eq!(receiving.end().unwrap_err().rule, Rule::Under16Bytes);
    let ended = receiving.clone();
    assert_eq!(receiving.piece(&[]).unwrap_err().rule, Rule::AfterTheEnd);
    assert_eq!(receiving.end().unwrap_err().rule, Rule::AfterTheEnd);
    assert_eq!(receiving, ended);
}
