//! Is there a fan in this zone? The walk to its first fan or pump, and the number of elements visited.

use crate::access::walk;
use crate::answer::Refusal;
use crate::element::id;
use crate::reader::check;
use crate::settings::Settings;

/// A table whose acceptance is shown: the reader's 0 is the only way to one.
#[derive(Clone, Copy, Debug)]
pub struct Accepted<'t>(&'t [u8]);

/// What a walk came to: whether it met a fan or pump of the zone, and how many elements it visited.
#[derive(Clone, Copy, Debug, Default, PartialEq, Eq)]
pub struct Walked {
    pub met: bool,
    pub visited: usize,
}

impl<'t> Accepted<'t> {
    /// Checks the table, and gives its refusal where it has one.
    pub fn checked(table: &'t [u8], settings: Settings) -> Result<Accepted<'t>, Refusal> {
        check(table, settings).into_result()?;
        Ok(Accepted(table))
    }

    /// Walks to the first fan or pump of the zone and stops there; over all elements when there is none.
    pub fn fan(self, zone: u8) -> Walked {
        let mut walked = Walked::default();
        for (_, element) in walk(self.0) {
            walked = visit(element, zone, walked.visited);
            if walked.met {
                break;
            }
        }
        walked
    }
}

/// One element more, of which alone the bytes are lent. Its kind is looked at first: byte 7 of a string or a
/// zone descriptor is content, and a string may end before it.
fn visit(element: &[u8], zone: u8, so_far: usize) -> Walked {
    Walked {
        met: matches!(element[0], id::FAN | id::PUMP) && element[7] == zone,
        visited: so_far + 1,
    }
}

/// The same of any bytes, which are checked first; or the table's refusal.
///
/// An entry point for benchmarks; never inlined, so that it is the call that is timed.
#[inline(never)]
pub fn fan(table: &[u8], zone: u8, settings: Settings) -> Result<Walked, Refusal> {
    Ok(Accepted::checked(table, settings)?.fan(zone))
}

#[cfg(test)]
mod tests {
    use super::*;
    use crate::generator::raw;

    /// Bytes of which nobody says that they are accepted: behind the fan stands a length that leads out of them.
    #[test]
    fn nothing_behind_the_hit_is_looked_at() {
        let mut table = raw::table(&[raw::zone(1, 0), raw::fan(1, 0x05, 0x06)]);
        table.extend([0x03, 0xFF, 0xFF]);
        let wanted = Walked {
            met: true,
            visited: 2,
        };
        assert_eq!(Accepted(&table).fan(1), wanted);
    }
}
