//! Tables with block mode, which the archive alone reads.

use super::raw;
use super::valid::valid;
use crate::element::id;
use crate::random::Random;
use crate::settings::{Chip, Rules, Settings, BLOCK_MODE};

/// A table that the archive's reader takes on this chip and the ordinary one refuses.
pub fn only_in_the_archive(random: &mut Random, chip: Chip) -> Vec<u8> {
    loop {
        let table = valid(random, Settings::new(chip, Rules::Archive));
        if has_block_mode(&table) {
            return table;
        }
    }
}

/// Is there a bus device in block mode among these bytes, as far as their elements can be cut?
pub fn has_block_mode(table: &[u8]) -> bool {
    raw::cut(table).any(|element| {
        let on_a_bus = id::ON_A_BUS.contains(&element[0]);
        let in_block_mode = element.get(8).is_some_and(|bus| bus & 0x0F == BLOCK_MODE);
        on_a_bus && in_block_mode
    })
}
