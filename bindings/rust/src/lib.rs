//! The proved reader and writer of ESA configuration tables, revision 0.90, from Rust: safe functions over the archive
//! `libesa.a`, with nothing but the standard library.
//!
//! What each function answers and leaves is proved of the archive, for every input; `docs/CALLS.md` of the repository has the
//! theorem to each. Around it stands this crate, which is plain Rust and tested. `include/esa.h` asks three things of a caller:
//! memory that may be read and written, places that do not overlap, and nobody else who writes to them. A slice is such memory,
//! one lent by `&mut` overlaps no other, and nobody else writes to either while it is lent: so the compiler keeps all three, and
//! every function here is safe, for any bytes, any lengths and any numbers.
//!
//! ```
//! use esa::{check, Chip, Rule, Settings};
//!
//! let settings = Settings::ordinary(Chip::C8051F320);
//! let quiet = std::fs::read("../../tables/quiet-box.esa")?;
//! assert_eq!(check(&quiet, settings), Ok(15));
//!
//! let spring = std::fs::read("../../tables/spring.esa")?;
//! let refusal = check(&spring, settings).unwrap_err();
//! assert_eq!((refusal.rule, refusal.place), (Rule::NoZone, 16));
//! assert_eq!(refusal.to_string(), "13 at 16: the zone of an element has no descriptor");
//! # Ok::<(), std::io::Error>(())
//! ```
//!
//! To use it from another crate, run `tools/archive` in the repository, and name this folder among your dependencies:
//! `esa = { path = "<repository>/bindings/rust" }`. Where `libesa.a` stands elsewhere, the variable `ESA_ARCHIVE_DIR` names its folder, by
//! the whole path, when you build.
//!
//! Calls that read by either set of rules take [`Settings`]; those that have one set of their own take a [`Chip`].
//!
//! | To | Call |
//! |---|---|
//! | check a table | [`check`]; in pieces [`Receiving`] |
//! | read it | [`describe`], [`element`], [`fields`], [`part`], [`part_length`], [`text`], [`label`], [`fan`], [`list`] |
//! | read inside a variable part | [`block`], [`pair`], [`entries`], [`entry`], [`colours`], [`colour`] |
//! | see which pins are free | [`sheet`], [`sheet_forward`], [`sheet_text`] |
//! | hold two tables side by side | [`diff`] |
//! | save what can be saved of a damaged one | [`salvage`] |
//! | run counts from the bench through one | [`reading`] and [`thermistor`] of one count, [`Trace`] of a recording |
//! | write one | [`start`], [`append`], [`rewrite`], [`remove`] |
//! | move one to Intel HEX and back | [`hex`], [`unhex`] |

#![warn(missing_docs)]

mod answers;
mod blocks;
mod comparing;
mod kinds;
mod moving;
mod numbers;
mod raw;
mod reading;
mod receiving;
mod salvaging;
mod settings;
mod sheets;
mod tracing;
mod writing;

pub use answers::{Refusal, Rule};
pub use blocks::{block, colour, colours, entries, entry, pair, Block, Pair};
pub use comparing::{diff, Side, SideRefusal};
pub use kinds::Kind;
pub use moving::{hex, unhex, LONGEST_TEXT};
pub use numbers::{pin, Numbers, UNUSED_PIN};
pub use reading::{check, describe, element, fan, fields, label, list, part, part_length, text, Fan, Label};
pub use receiving::Receiving;
pub use salvaging::{salvage, Saved};
pub use settings::{Chip, Rules, Settings};
pub use sheets::{sheet, sheet_forward, sheet_text, Claimant, Sheet};
pub use tracing::{reading, thermistor, Reading, Trace};
pub use writing::{append, remove, rewrite, start};

/// The bytes of the shortest table.
pub const SHORTEST: usize = 16;
/// The bytes of the longest table.
pub const LONGEST: usize = 4096;
