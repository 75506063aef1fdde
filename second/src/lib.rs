//! Bindsatchel's second program: an independent reader and writer of ESA configuration tables,
//! revision 0.90, to be compared with the proved one and to be its benchmark's baseline.
//!
//! Written from the scope of work (document 01), the change requests (document 02), the rulings on both and
//! the ESA Device Specification 0.90a (source document 000). For benchmarks: [`check`], on the tables of [`generator::mixed`],
//! [`generator::controllers`] and [`generator::damaged`].
#![forbid(unsafe_code)]

pub mod access;
pub mod answer;
pub mod blocks;
pub mod diff;
pub mod element;
pub mod fan;
pub mod fields;
pub mod generator;
pub mod hex;
pub mod histogram;
pub mod label;
pub mod layout;
pub mod listing;
pub mod numbers;
pub mod pins;
pub mod plain;
pub mod random;
pub mod reader;
pub mod receiver;
pub mod record;
pub mod remove;
pub mod rewrite;
pub mod rules;
pub mod salvage;
pub mod settings;
pub mod sheet;
pub mod text;
pub mod trace;
pub mod units;
pub mod writer;

pub use access::{description, element, part};
pub use answer::{Refusal, Verdict};
pub use diff::{diff, diff_text, Refused, DIFF};
pub use fan::{fan, Accepted, Walked};
pub use fields::{describe, fields, part_place, text_place};
pub use hex::{hex, unhex};
pub use label::{label, label_place, Lent};
pub use listing::{list, listing};
pub use reader::check;
pub use receiver::Receiver;
pub use remove::remove;
pub use rewrite::{cleared, rewrite, rewrite_by_records};
pub use salvage::{salvage, saved, Saved, SALVAGE_LINES};
pub use settings::{Chip, Rules, Settings};
pub use sheet::{forward, sheet, sheet_text, Sheet};
pub use trace::{reading, Reading, Trace};
pub use writer::{append, start};
