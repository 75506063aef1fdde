//! The receiver: a table in pieces, cut anywhere (document 02, 4/14), and no copy of it held.
//!
//! An element that stands whole in a piece is judged there, by the functions of the fast reader. Of one that a cut
//! falls into its fixed fields are kept until it is whole, and of its part a few numbers (`cut`). Of those gone by
//! the sets of the fast reader are left and, as nobody can walk back for the place of a refusal, where each zone and
//! each string was first named (`firsts`). So the state is as large for 4,096 bytes as for 16.
//!
//! The told length is trusted until the end, and only then held to the bytes that came: 1, 2 and 3 stand before
//! whatever was found meanwhile.

mod cut;
mod firsts;
mod pass;

use crate::answer::{number, Refusal, DESCRIPTION_LENGTH, LARGEST_TABLE};
use crate::reader::sets::Chosen;
use crate::reader::{bad_hardware, first_claims, said, type_and_power};
use crate::settings::Settings;
use pass::Pass;

/// What is known of the bytes so far. Two that are equal answer alike for ever.
#[derive(Clone, Debug, PartialEq, Eq)]
pub struct Receiver {
    settings: Settings,
    ended: bool,
    /// All bytes so far, those behind the told length too; it does not wrap.
    count: u64,
    /// The description, as far as it has come.
    head: [u8; DESCRIPTION_LENGTH],
    pass: Pass,
}

impl Receiver {
    /// Before the first byte.
    pub fn start(settings: Settings) -> Receiver {
        Receiver {
            settings,
            ended: false,
            count: 0,
            head: [0; DESCRIPTION_LENGTH],
            pass: Pass::new(),
        }
    }

    /// Takes a piece of any size; no verdict is given. 20 at 0 after the end, and nothing changes.
    ///
    /// An entry point for benchmarks; never inlined, so that it is the call that is timed.
    #[inline(never)]
    pub fn piece(&mut self, piece: &[u8]) -> Result<(), Refusal> {
        if self.ended {
            return Err(AFTER_END);
        }
        let before = self.count;
        self.count = before.saturating_add(piece.len() as u64);
        let rest = if before < DESCRIPTION_LENGTH as u64 {
            self.begin(before as usize, piece)
        } else {
            piece
        };
        self.pass.piece(rest, Chosen::of(self.settings));
        Ok(())
    }

    /// The verdict on all bytes together; or 20 at 0 after the end, and nothing changes.
    #[inline(never)]
    pub fn end(&mut self) -> Result<usize, Refusal> {
        if self.ended {
            return Err(AFTER_END);
        }
        self.ended = true;
        let said = said(&self.head);
        let refusal = if self.count < DESCRIPTION_LENGTH as u64 {
            number::SHORT
        } else if self.head[0] != 0x01 {
            number::REVISION
        } else if self.count != said as u64 || said > LARGEST_TABLE {
            number::LENGTH
        } else {
            return self.pass.conclude();
        };
        Err(Refusal::at(refusal, 0))
    }

    /// More bytes of the description; gives those behind it.
    fn begin<'p>(&mut self, before: usize, piece: &'p [u8]) -> &'p [u8] {
        let more = piece.len().min(DESCRIPTION_LENGTH - before);
        self.head[before..before + more].copy_from_slice(&piece[..more]);
        if before + more == DESCRIPTION_LENGTH {
            self.described();
        }
        &piece[more..]
    }

    /// 4, 5 and 10 of the whole description, and what it claims and names. With another revision, or a length that no
    /// table has, nothing is looked at: the end will say 2 or 3.
    fn described(&mut self) {
        let (head, said) = (&self.head, said(&self.head));
        if head[0] != 0x01 || !(DESCRIPTION_LENGTH..=LARGEST_TABLE).contains(&said) {
            return;
        }
        let pins = Chosen::of(self.settings).pins;
        match type_and_power(head) {
            0 if bad_hardware(head, pins) => self.pass.refuse(number::PIN),
            0 => self.pass.open(said, head[4], first_claims(head, pins)),
            refusal => self.pass.refuse(refusal),
        }
    }
}

const AFTER_END: Refusal = Refusal::at(number::AFTER_END, 0);

#[cfg(test)]
mod tests {
    use super::*;
    use crate::generator::raw::TABLE_A;

    /// 2^64 and 16 bytes that say 16.
    #[test]
    fn the_count_does_not_wrap() {
        let mut receiver = Receiver::start(Settings::default());
        receiver.piece(&TABLE_A).unwrap();
        receiver.count = u64::MAX - 15;
        receiver.piece(&[0; 16]).unwrap();
        receiver.piece(&[0; 16]).unwrap();
        assert_eq!(receiver.end(), Err(Refusal::at(number::LENGTH, 0)));
    }

    /// Numbers alone, on no heap: the state is the struct itself.
    #[test]
    fn the_state_is_small() {
        assert!(std::mem::size_of::<Receiver>() <= 1_400);
    }
}
