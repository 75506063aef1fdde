//! Text put into a lent buffer. No byte behind it is touched.

use super::TEXT;

pub(super) struct Text<'o> {
    out: &'o mut [u8; TEXT],
    pub length: usize,
}

impl Text<'_> {
    pub fn at_the_front(out: &mut [u8; TEXT]) -> Text<'_> {
        Text { out, length: 0 }
    }

    #[inline(always)]
    pub fn put<const N: usize>(&mut self, bytes: &[u8; N]) {
        self.out[self.length..self.length + N].copy_from_slice(bytes);
        self.length += N;
    }

    /// In decimals.
    #[inline(always)]
    pub fn number(&mut self, number: u64) {
        let digits = number.checked_ilog10().unwrap_or(0) as usize + 1;
        let mut left = number;
        for place in self.out[self.length..self.length + digits].iter_mut().rev() {
            *place = b'0' + (left % 10) as u8;
            left /= 10;
        }
        self.length += digits;
    }
}
