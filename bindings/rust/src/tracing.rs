//! Raw counts from the bench, run through a table.

use crate::answers::{counted, unpacked};
use crate::{raw, Chip, Refusal, Settings};

/// What a count means at an element.
#[derive(Clone, Copy, Debug, PartialEq, Eq)]
pub enum Reading {
    /// Tenths of a degree, deciamps, decivolts or revolutions a minute, by the element's kind.
    Value(u64),
    /// A temperature under 0 degrees, off the calibration.
    Under0,
    /// A temperature over 100 degrees, off the calibration.
    Over100,
}

/// What does this count mean at element k? Of a fan or a pump it is the pulses in one second, of an analogue thermal sensor, a voltage
/// or a current the converter's count. Or the table's own refusal; 17 at 0 where there is no element k; 19 at 0 for pulses over 65,535;
/// 18 at 0 where the element has no reading for the count.
///
/// ```
/// use esa::{reading, Reading};
/// let table = std::fs::read("../../tables/quiet-box.esa")?;
/// let at = |k, count| reading(&table, k, count, Default::default());
/// assert_eq!(at(0, 40), Ok(Reading::Value(1200))); // the front fan, with two pulses a turn
/// assert_eq!(at(2, 512), Ok(Reading::Value(250))); // the front air has 25 degrees
/// assert_eq!(at(2, 761), Ok(Reading::Under0));
/// assert_eq!(at(4, 1).unwrap_err().number(), 18); // a lamp
/// # Ok::<(), std::io::Error>(())
/// ```
pub fn reading(table: &[u8], k: usize, count: u64, settings: Settings) -> Result<Reading, Refusal> {
    read(unsafe { raw::esa_reading(table.as_ptr(), table.len(), k, count, settings.number()) })
}

/// The same of our own thermistor, whose calibration is 850, 700, 500, 320, 200, from a ready table and without a division: tenths of a
/// degree; 18 at 0 for a count over 1023.
///
/// ```
/// use esa::{thermistor, Reading};
/// assert_eq!(thermistor(700), Ok(Reading::Value(250)));
/// assert_eq!((thermistor(851), thermistor(199)), (Ok(Reading::Under0), Ok(Reading::Over100)));
/// assert_eq!(thermistor(1024).unwrap_err().number(), 18);
/// ```
pub fn thermistor(count: u64) -> Result<Reading, Refusal> {
    read(unsafe { raw::esa_thermistor(count) })
}

/// Beside 0 stands 4 times the reading, or 1 for under 0, or 2 for over 100.
fn read(answer: u64) -> Result<Reading, Refusal> {
    let beside = unpacked(answer)?;
    Ok(match beside & 3 {
        1 => Reading::Under0,
        2 => Reading::Over100,
        _ => Reading::Value(beside >> 2),
    })
}

/// So many bytes of a trace are taken at once.
const PIECE: usize = 2048;
/// Every text of a piece, and that of the end, fits into so many bytes.
const TEXT: usize = 65536;

/// A trace that is run through a table, by the ordinary rules always: lines of second of day, element number, count, by tabs, each
/// ended by a line feed.
///
/// For each line comes the reading in plain decimals (tenths of a degree, deciamps, decivolts, revolutions a minute), or `under 0`, or
/// `over 100`, or `R`, number, line number by tabs. At the end come the tallies, a line for every element: its number, least,
/// greatest, number of readings, under 0, over 100. A state has the same size whatever the trace.
///
/// ```
/// use esa::{Chip, Trace};
/// let table = std::fs::read("../../tables/quiet-box.esa")?;
/// let mut trace = Trace::start(&table, Chip::C8051F320).unwrap();
/// let mut lines = String::new();
/// trace.piece(b"0\t0\t40\n1\t15\t1\n2\t0", &mut lines); // 40 pulses of the front fan; no element 15; a line cut short
/// assert_eq!(lines, "1200\nR\t17\t2\n");
/// trace.piece(b"\t44\n", &mut lines);
/// assert!(lines.ends_with("\n1320\n"));
///
/// let mut tallies = String::new();
/// trace.end(&mut tallies);
/// assert!(tallies.starts_with("0\t1200\t1320\t2\t0\t0\n1\t0\t0\t0\t0\t0\n"));
/// # Ok::<(), std::io::Error>(())
/// ```
#[derive(Clone, Debug, PartialEq, Eq)]
pub struct Trace {
    numbers: [u64; 7],
    sensors: [u16; 576],
    tallies: [u32; 480],
}

impl Trace {
    /// Checks the table and begins: every tally is 0, no line has come. Or the table's own refusal.
    pub fn start(table: &[u8], chip: Chip) -> Result<Trace, Refusal> {
        let mut state = Trace { numbers: [0; 7], sensors: [0; 576], tallies: [0; 480] };
        let (numbers, sensors, tallies) = (state.numbers.as_mut_ptr(), state.sensors.as_mut_ptr(), state.tallies.as_mut_ptr());
        counted(unsafe { raw::esa_tracing_start(numbers, sensors, tallies, table.as_ptr(), table.len(), chip as u64) })?;
        Ok(state)
    }

    /// The next bytes of the trace, however many and cut anywhere: adds to `out` an output line for each line that they end.
    pub fn piece(&mut self, bytes: &[u8], out: &mut String) {
        let mut text = vec![0; TEXT];
        for piece in bytes.chunks(PIECE) {
            let (numbers, sensors, tallies) = (self.numbers.as_mut_ptr(), self.sensors.as_ptr(), self.tallies.as_mut_ptr());
            let (from, count, lent) = (piece.as_ptr(), piece.len(), text.as_mut_ptr());
            let length = unsafe { raw::esa_tracing_piece(numbers, sensors, tallies, from, count, lent) };
            add(&text[..length], out);
        }
    }

    /// No more comes: adds the line of a last line without a line feed, unless it is empty, and then the tallies.
    pub fn end(&self, out: &mut String) {
        let mut text = vec![0; TEXT];
        let (numbers, sensors, tallies) = (self.numbers.as_ptr(), self.sensors.as_ptr(), self.tallies.as_ptr());
        let length = unsafe { raw::esa_tracing_end(numbers, sensors, tallies, text.as_mut_ptr()) };
        add(&text[..length], out);
    }
}

/// The archive writes ASCII.
fn add(text: &[u8], out: &mut String) {
    out.extend(text.iter().map(|&byte| char::from(byte)));
}
