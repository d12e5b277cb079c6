//! Bytes taken apart from the beginning, and numbers put behind bytes, as a layout has them.

use sagdrif::Layout;

/// What is left of some bytes.
pub struct Bytes<'a> {
    pub layout: Layout,
    pub rest: &'a [u8],
}

impl<'a> Bytes<'a> {
    /// The next bytes, if there are so many.
    pub fn take(&mut self, count: usize) -> Option<&'a [u8]> {
        let (taken, rest) = self.rest.split_at_checked(count)?;
        self.rest = rest;
        Some(taken)
    }

    /// The next number of the layout: an offset, a node's number, a count.
    pub fn number(&mut self) -> Option<usize> {
        let bytes = self.take(self.layout.sizes().number)?;
        Some(
            bytes
                .iter()
                .rev()
                .fold(0, |high, low| 256 * high + *low as usize),
        )
    }
}

/// Puts the low bytes of a number behind others, as many as the layout has for it.
pub fn push_number(layout: Layout, number: usize, out: &mut Vec<u8>) {
    out.extend(&number.to_le_bytes()[..layout.sizes().number]);
}
