//! What can be saved of a damaged table.

mod common;

use esa::{check, rewrite, salvage, Chip, Rule, Settings};

const CHIP: Chip = Chip::C8051F320;

#[test]
fn the_sample_is_saved_as_its_text_says() {
    let mut out = [0; esa::LONGEST];
    let saved = salvage(&common::table("damaged"), CHIP, &mut out).unwrap();
    let told = common::told("damaged", "./esa salvage tables/damaged.esa out.esa");
    assert!(!told.is_empty());
    assert_eq!(saved.lines, told);
}

#[test]
fn a_good_table_comes_out_rewritten_with_no_line() {
    for (name, table) in common::accepted() {
        let (mut out, mut again) = (vec![0; table.len()], vec![0; table.len()]);
        let saved = salvage(&table, CHIP, &mut out).unwrap();
        rewrite(&table, CHIP, &mut again).unwrap();
        assert_eq!((saved.length, saved.lines.as_str()), (table.len(), ""), "{name}");
        assert_eq!(out, again, "{name}");
    }
}

#[test]
fn whatever_is_flipped_or_cut_off_the_output_is_accepted() {
    let table = common::table("every-kind");
    for at in 16..table.len() {
        let mut damaged = table[..table.len() - at % 5].to_vec();
        let last = damaged.len() - 1;
        damaged[at.min(last)] ^= 0x5A;
        let mut out = [7; esa::LONGEST + 1];
        let saved = salvage(&damaged, CHIP, &mut out).unwrap();
        assert!(check(&out[..saved.length], Settings::ordinary(CHIP)).is_ok(), "byte {at}");
        assert!(out[saved.length..].iter().all(|&byte| byte == 7), "byte {at}: behind the table");
    }
}

#[test]
fn a_refusal_alters_no_byte() {
    let table = common::table("quiet-box");
    let mut out = vec![7; table.len() - 1];
    assert_eq!(salvage(&table, CHIP, &mut out).unwrap_err().rule, Rule::NoRoom);
    let lost = salvage(b"no table at all", CHIP, &mut out).unwrap_err();
    assert_eq!((lost.rule, lost.place), (Rule::Lost, 0));
    assert!(out.iter().all(|&byte| byte == 7));
}
