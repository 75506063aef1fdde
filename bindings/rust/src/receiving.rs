//! A table that comes in pieces, as over USB in reports of 64 bytes.

use crate::answers::{counted, unpacked};
use crate::{raw, Refusal, Settings};

/// The state of a table that is being received. Wherever the table is cut, [`end`](Receiving::end) gives the answer that
/// [`check`](crate::check) gives to all its bytes together, and nothing is told before. No copy of the table is kept: a state has
/// the same size whatever the table's, and several may be received at a time.
///
/// ```
/// use esa::{Receiving, Rule};
/// let table = std::fs::read("../../tables/reports.esa")?;
/// let mut receiving = Receiving::start(Default::default());
/// for report in table.chunks(64) {
///     receiving.piece(report).unwrap();
/// }
/// assert_eq!(receiving.end(), Ok(6));
/// assert_eq!(receiving.end().unwrap_err().rule, Rule::AfterTheEnd);
/// # Ok::<(), std::io::Error>(())
/// ```
#[derive(Clone, Debug, PartialEq, Eq)]
pub struct Receiving {
    numbers: [usize; 16],
    zone_places: [u16; 256],
    string_places: [u16; 256],
    zones: [bool; 256],
    strings: [bool; 256],
    named_zones: [bool; 256],
    named_strings: [bool; 256],
    description: [u8; 30],
    element: [u8; 30],
}

impl Receiving {
    /// Begins with no byte.
    pub fn start(settings: Settings) -> Receiving {
        let mut state = Receiving {
            numbers: [0; 16],
            zone_places: [0; 256],
            string_places: [0; 256],
            zones: [false; 256],
            strings: [false; 256],
            named_zones: [false; 256],
            named_strings: [false; 256],
            description: [0; 30],
            element: [0; 30],
        };
        let (numbers, description, element) =
            (state.numbers.as_mut_ptr(), state.description.as_mut_ptr(), state.element.as_mut_ptr());
        // Always 0, and nothing beside it.
        unsafe { raw::esa_receiving_start(numbers, description, element, settings.number() as usize) };
        state
    }

    /// Takes the next bytes, however many; none change nothing. Good also where the table is lost already; 20 at 0 after the end.
    pub fn piece(&mut self, piece: &[u8]) -> Result<(), Refusal> {
        let answer = unsafe {
            raw::esa_receiving_piece(
                self.numbers.as_mut_ptr(),
                self.description.as_mut_ptr(),
                self.element.as_mut_ptr(),
                self.zones.as_mut_ptr(),
                self.strings.as_mut_ptr(),
                self.named_zones.as_mut_ptr(),
                self.named_strings.as_mut_ptr(),
                self.zone_places.as_mut_ptr(),
                self.string_places.as_mut_ptr(),
                piece.as_ptr(),
                piece.len(),
            )
        };
        unpacked(answer).map(|_| ())
    }

    /// No more bytes come: what [`check`](crate::check) answers to those that came; 20 at 0 after the end.
    pub fn end(&mut self) -> Result<usize, Refusal> {
        counted(unsafe {
            raw::esa_receiving_end(
                self.numbers.as_mut_ptr(),
                self.description.as_ptr(),
                self.zones.as_ptr(),
                self.strings.as_ptr(),
                self.named_zones.as_ptr(),
                self.named_strings.as_ptr(),
                self.zone_places.as_ptr(),
                self.string_places.as_ptr(),
            )
        })
    }
}
