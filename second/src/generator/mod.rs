//! Seeded tables of every sort; the same seed gives the same tables on every machine.

mod around;
mod calls;
mod damaged;
mod faults;
mod fields;
mod moved;
mod noise;
mod pool;
pub mod raw;
mod records;
mod retired;
mod sides;
mod targeted;
mod texts;
mod traces;
mod valid;
mod wrecked;

use crate::random::Random;
use crate::settings::Settings;

pub use around::{only_on_the_320, touches_the_four, AROUND};
pub use calls::{writer_call, What, WriterCall};
pub use damaged::{mutated, truncated};
pub use faults::double_faults;
pub use moved::hex_text;
pub use noise::{random_bytes, structured};
pub use retired::{has_block_mode, only_in_the_archive};
pub use sides::{altered, beside, Altered};
pub use targeted::{targeted, Case};
pub use texts::{spoil, text, texts};
pub use traces::{edge_counts, pieces, trace};
pub use valid::{controllers, mixed, mixed_of, valid, valid_parts};
pub use wrecked::wrecked;

/// A table of any sort; those that are good, or were good once, are so with these settings.
pub fn any(random: &mut Random, settings: Settings) -> Vec<u8> {
    match random.below(100) {
        0..=13 => valid(random, settings),
        14..=15 => mixed(random, settings),
        16 => controllers(random, settings),
        17..=21 => targeted()[random.below(targeted().len())].1.clone(),
        22..=23 => only_on_the_320(random, settings.rules),
        24..=25 => only_in_the_archive(random, settings.chip),
        26..=52 => double_faults(random, settings),
        53..=77 => mutated(random, settings),
        78..=82 => truncated(random, settings),
        83..=86 => random_bytes(random),
        _ => structured(random),
    }
}

/// A table that was good once with these settings, or nearly; most are refused.
pub fn damaged(random: &mut Random, settings: Settings) -> Vec<u8> {
    match random.below(10) {
        0..=4 => mutated(random, settings),
        5..=8 => double_faults(random, settings),
        _ => truncated(random, settings),
    }
}
