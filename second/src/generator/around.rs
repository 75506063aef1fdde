//! Tables around the four pins that one chip has and the other lacks.

use super::raw;
use super::valid::valid_near;
use crate::element::id;
use crate::pins::ONLY_320;
use crate::random::Random;
use crate::settings::Rules;

/// The ends of the four, and the pins beside them that both chips have: P2.3, P2.4, P2.7, P3.0.
pub const AROUND: [u8; 4] = [0x23, 0x24, 0x27, 0x30];

/// A table that the 320 takes by these rules and the 321 refuses.
pub fn only_on_the_320(random: &mut Random, rules: Rules) -> Vec<u8> {
    loop {
        let table = valid_near(random, rules);
        if touches_the_four(&table) {
            return table;
        }
    }
}

/// Is one of the four in a pin place of these bytes, good or bad, as far as their elements can be cut?
pub fn touches_the_four(table: &[u8]) -> bool {
    let Some(hardware) = table.get(9..12) else {
        return false;
    };
    let one_of_them = |pin: &u8| ONLY_320.contains(pin);
    hardware.iter().any(one_of_them)
        || raw::cut(table).any(|element| {
            let pins = places(element).iter().filter_map(|&at| element.get(at));
            pins.into_iter().any(one_of_them)
        })
}

/// Where an element has its pins.
fn places(element: &[u8]) -> &'static [usize] {
    match element[0] {
        kind if id::ON_A_BUS.contains(&kind) => {
            let spi = element.get(8).is_some_and(|bus| bus & 0x0F == 3);
            &[9][..usize::from(spi)]
        }
        id::ANALOGUE_SENSOR => &[9],
        id::FAN | id::PUMP => &[8, 9],
        id::STATUS_LED => &[8, 10, 12],
        id::WATER_LEVEL | id::VOLTAGE | id::CURRENT => &[8],
        id::RGB_LED => &[8, 9, 10],
        _ => &[],
    }
}
