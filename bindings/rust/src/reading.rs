//! What stands in a table. Every call checks the whole of it first, for the chip and by the rules of its settings, and gives the
//! table's own refusal where it breaks a rule. What is accepted for the C8051F321 is accepted for the C8051F320 too.

use crate::answers::{counted, front, unpacked};
use crate::{raw, Kind, Numbers, Refusal, Settings};
use std::ops::Range;

/// Is it a table? The number of elements, exactly when the bytes keep every rule; otherwise the first rule that they break, 1 to
/// 15 or 23, and its place.
///
/// ```
/// use esa::{check, Settings};
/// let table = std::fs::read("../../tables/quiet-box.esa")?;
/// assert_eq!(check(&table, Settings::default()), Ok(15));
/// assert_eq!(check(&table[..300], Settings::default()).unwrap_err().number(), 3);
/// # Ok::<(), std::io::Error>(())
/// ```
pub fn check(table: &[u8], settings: Settings) -> Result<usize, Refusal> {
    counted(unsafe { raw::esa_check(table.as_ptr(), table.len(), settings.number()) })
}

/// What does the description say?
///
/// ```
/// let table = std::fs::read("../../tables/quiet-box.esa")?;
/// let description = esa::describe(&table, Default::default()).unwrap();
/// assert_eq!(description.four_at(2), 41); // the serial number
/// assert_eq!(description.byte_at(8), esa::pin(3, 0)); // the first hardware revision pin
/// # Ok::<(), std::io::Error>(())
/// ```
pub fn describe(table: &[u8], settings: Settings) -> Result<Numbers, Refusal> {
    let mut numbers = Numbers::new();
    let lent = numbers.0.as_mut_ptr();
    unpacked(unsafe { raw::esa_describe(table.as_ptr(), table.len(), settings.number(), lent) })?;
    Ok(numbers)
}

/// Of which kind is element k, counted from 0? The table's refusal, or 17 at 0 when there is no element k.
///
/// ```
/// use esa::{element, Kind, Rule};
/// let table = std::fs::read("../../tables/quiet-box.esa")?;
/// assert_eq!(element(&table, 0, Default::default()), Ok(Kind::Fan));
/// assert_eq!(element(&table, 15, Default::default()).unwrap_err().rule, Rule::PastTheLast);
/// # Ok::<(), std::io::Error>(())
/// ```
pub fn element(table: &[u8], k: usize, settings: Settings) -> Result<Kind, Refusal> {
    known(unsafe { raw::esa_element(table.as_ptr(), table.len(), k, settings.number()) })
}

/// What does element k say? Its kind and its numbers, which [`append`](crate::append) takes as they stand (but for block mode,
/// read by the archive's rules: it is 23 there). The refusals are those of [`element`].
///
/// ```
/// let table = std::fs::read("../../tables/quiet-box.esa")?;
/// let (kind, fan) = esa::fields(&table, 0, Default::default()).unwrap();
/// assert_eq!((kind, fan.byte_at(4)), (esa::Kind::Fan, 1)); // it cools zone 1
/// # Ok::<(), std::io::Error>(())
/// ```
pub fn fields(table: &[u8], k: usize, settings: Settings) -> Result<(Kind, Numbers), Refusal> {
    let mut numbers = Numbers::new();
    let lent = numbers.0.as_mut_ptr();
    let kind = known(unsafe { raw::esa_fields(table.as_ptr(), table.len(), k, settings.number(), lent) })?;
    Ok((kind, numbers))
}

/// The kind that stands beside 0. An element of an accepted table has one of the fourteen.
fn known(answer: u64) -> Result<Kind, Refusal> {
    let id = unpacked(answer)?;
    Ok(Kind::of(id as u8).expect("the archive gives one of the fourteen kinds"))
}

/// How long is the variable part of element k? 0 also where [`element`] refuses.
///
/// ```
/// let table = std::fs::read("../../tables/quiet-box.esa")?;
/// assert_eq!(esa::part_length(&table, 0, Default::default()), 0); // a fan has none
/// # Ok::<(), std::io::Error>(())
/// ```
pub fn part_length(table: &[u8], k: usize, settings: Settings) -> usize {
    unsafe { raw::esa_part_length(table.as_ptr(), table.len(), k, settings.number()) }
}

/// Where does the variable part of element k stand in the table? The blocks of 09h, 0Ah and 0Dh, all bytes after the header of a
/// string or a zone descriptor; of the others none, behind their fixed fields. The refusals are those of [`element`].
///
/// ```
/// let table = std::fs::read("../../tables/every-kind.esa")?;
/// let zone = (0..14).find(|&k| esa::element(&table, k, Default::default()) == Ok(esa::Kind::Zone)).unwrap();
/// let place = esa::part(&table, zone, Default::default()).unwrap();
/// assert_eq!(table[place][0], 1); // the zone's number
/// # Ok::<(), std::io::Error>(())
/// ```
pub fn part(table: &[u8], k: usize, settings: Settings) -> Result<Range<usize>, Refusal> {
    placed(unsafe { raw::esa_part(table.as_ptr(), table.len(), k, settings.number()) })
}

/// The same of the text of a string, which is its part from byte 3 on: well-formed UTF-16 with the low byte first. An empty range
/// for an element that is no string.
pub fn text(table: &[u8], k: usize, settings: Settings) -> Result<Range<usize>, Refusal> {
    placed(unsafe { raw::esa_text(table.as_ptr(), table.len(), k, settings.number()) })
}

/// Beside 0 a place in 16 bits and a length above them.
fn placed(answer: u64) -> Result<Range<usize>, Refusal> {
    let beside = unpacked(answer)?;
    let (place, length) = ((beside & 0xFFFF) as usize, (beside >> 16) as usize);
    Ok(place..place + length)
}

/// What an element is called: a part of the table, or the name that was lent. No byte is copied.
#[derive(Clone, Copy, Debug, PartialEq, Eq)]
pub enum Label<'a> {
    /// A text of the table, well-formed UTF-16 with the low byte first, and where it starts there.
    Text {
        /// Its offset in the table.
        place: usize,
        /// Its bytes.
        bytes: &'a [u8],
    },
    /// The lent name, whole and as it is.
    Lent(&'a [u8]),
}

impl Label<'_> {
    /// A text of the table as a string of Rust; `None` for the lent name, whose encoding the caller knows.
    pub fn read(&self) -> Option<String> {
        let Label::Text { bytes, .. } = self else { return None };
        let units: Vec<u16> = bytes.chunks_exact(2).map(|two| u16::from_le_bytes([two[0], two[1]])).collect();
        Some(String::from_utf16(&units).expect("a text of an accepted table is well-formed"))
    }
}

/// What is element k called? The text of the string that its index names; of a string its own text; `name`, which may be any
/// bytes, where the index is 0. The refusals are those of [`element`].
///
/// ```
/// use esa::{label, Label};
/// let table = std::fs::read("../../tables/this-month.esa")?;
/// let called = |k| label(&table, k, Default::default(), b"nameless").unwrap();
/// assert_eq!(called(0).read().as_deref(), Some("Front fan"));
/// assert_eq!(called(15), Label::Lent(b"nameless")); // the voltage sensor has no string
/// # Ok::<(), std::io::Error>(())
/// ```
pub fn label<'a>(table: &'a [u8], k: usize, settings: Settings, name: &'a [u8]) -> Result<Label<'a>, Refusal> {
    let (from, length) = (name.as_ptr(), name.len());
    let beside = unpacked(unsafe { raw::esa_label(table.as_ptr(), table.len(), k, settings.number(), from, length) })?;
    if beside & 0xFF == 1 {
        return Ok(Label::Lent(name)); // it is the whole name, however long
    }
    let (place, length) = ((beside >> 8 & 0xFF_FFFF) as usize, (beside >> 32) as usize);
    Ok(Label::Text { place, bytes: &table[place..place + length] })
}

/// Whether there is a fan or a pump, and how many elements were visited to find out.
#[derive(Clone, Copy, Debug, PartialEq, Eq)]
pub struct Fan {
    /// Is there one?
    pub found: bool,
    /// Those up to and with the first fan or pump of the zone, or all where there is none.
    pub visited: usize,
}

/// Is there a fan or a pump in this zone? Of a zone that nothing declares the answer is no, after all elements.
///
/// ```
/// let table = std::fs::read("../../tables/quiet-box.esa")?;
/// assert_eq!(esa::fan(&table, 2, Default::default()), Ok(esa::Fan { found: true, visited: 2 }));
/// assert_eq!(esa::fan(&table, 9, Default::default()), Ok(esa::Fan { found: false, visited: 15 }));
/// # Ok::<(), std::io::Error>(())
/// ```
pub fn fan(table: &[u8], zone: u8, settings: Settings) -> Result<Fan, Refusal> {
    let beside = counted(unsafe { raw::esa_fan(table.as_ptr(), table.len(), zone, settings.number()) })?;
    Ok(Fan { found: beside & 1 == 1, visited: beside >> 1 })
}

/// Every listing fits into so many bytes.
const LISTING: usize = 4096;

/// The listing of a table: one record a line, fields parted by tabs, each line ended by a line feed; of a refused table the one
/// line `R`, number, place.
///
/// ```
/// let table = std::fs::read("../../tables/quiet-box.esa")?;
/// let listing = esa::list(&table, Default::default());
/// assert!(listing.starts_with("T\t0.90\t326\t2\t1\t41\t100\tP3.0\t-\t-\nE\t16\t03\t1\tP0.5,P0.6\n"));
/// assert_eq!(esa::list(&[], Default::default()), "R\t1\t0\n");
/// # Ok::<(), std::io::Error>(())
/// ```
pub fn list(table: &[u8], settings: Settings) -> String {
    let mut out = vec![0; LISTING];
    let length = unsafe { raw::esa_list(table.as_ptr(), table.len(), settings.number(), out.as_mut_ptr()) };
    front(out, length)
}
