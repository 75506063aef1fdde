//! The settings as the calls take them, one number: bit 0 set is the 321, bit 1 the archive's rules; and those
//! that a table is read with.

use second::generator::{has_block_mode, touches_the_four};
use second::{Chip, Settings};

/// Bits of which none has a meaning; most calls are made without them.
const IGNORED: [u64; 7] = [0, 4, 0, 1 << 8, 0, 1 << 32, !3];

/// For a reading; `at` says with which ignored bits.
pub fn reading(settings: Settings, at: u64) -> u64 {
    settings.number() | IGNORED[at as usize % IGNORED.len()]
}

/// For start, append and rewrite, which ignore bit 1 too.
pub fn writing(chip: Chip, at: u64) -> u64 {
    let bit_1 = at / IGNORED.len() as u64 % 2 * 2;
    reading(chip.into(), at) | bit_1
}

/// What those calls make of the number.
pub fn of_writing(number: u64) -> Chip {
    Settings::of_number(number).chip
}

/// Those that a table is read with, first of all those that it was made for. Both chips where it has one of
/// the four pins in a pin place, both rules where it has block mode; and half of the tables with one of the
/// four settings in turn.
pub fn of_table(made_for: Settings, turn: u64, table: &[u8]) -> Vec<Settings> {
    let mut list = vec![made_for];
    if touches_the_four(table) {
        list.push(made_for.other_chip());
    }
    if has_block_mode(table) {
        let others: Vec<Settings> = list.iter().map(|one| one.other_rules()).collect();
        list.extend(others);
    }
    let in_turn = Settings::ALL[turn as usize / 8 % 4];
    if (turn / 4).is_multiple_of(2) && !list.contains(&in_turn) {
        list.push(in_turn);
    }
    list
}

#[cfg(test)]
mod tests {
    use super::*;
    use second::generator::raw;
    use std::collections::HashSet;

    /// Whatever a table was made for, all others get their turn.
    #[test]
    fn every_pair_of_settings_comes() {
        let mut pairs = HashSet::new();
        for turn in 0..32 {
            let made_for = Settings::ALL[turn as usize % 4];
            let list = of_table(made_for, turn, &raw::TABLE_A);
            assert_eq!(list[0], made_for);
            pairs.extend(list.into_iter().map(|one| (made_for, one)));
        }
        assert_eq!(pairs.len(), 16);
    }

    #[test]
    fn where_settings_can_matter_both_are_asked() {
        let pin = raw::table(&[raw::analogue(1, 0x24)]);
        let bus = raw::table(&[raw::digital(1, 0xF2, 0x40)]);
        let both = raw::table(&[raw::analogue(1, 0x24), raw::digital(1, 2, 0x40)]);
        for made_for in Settings::ALL {
            assert!(of_table(made_for, 4, &pin).contains(&made_for.other_chip()));
            assert!(of_table(made_for, 4, &bus).contains(&made_for.other_rules()));
            assert_eq!(of_table(made_for, 4, &both).len(), 4);
        }
    }
}
