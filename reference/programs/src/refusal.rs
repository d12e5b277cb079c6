//! Refusals 1 to 5, 8 and 18. Numbers 6 and 7 speak of stores that only a caller of the function
//! lends; a program lends its own, which are large enough.

use crate::layout::Layout;
use crate::tokens::{first_bad_token, list_tokens};
use std::ops::RangeInclusive;

/// The nesting limits that a call may choose.
pub const LIMITS: RangeInclusive<usize> = 1..=128;
/// The nesting limit of the program `operands`, which is the Rust's own.
pub const LIMIT_PROGRAM: usize = 64;

/// Why no reading takes place.
#[derive(Debug, Clone, Copy, PartialEq, Eq)]
pub enum Refusal {
    /// The line is over 255 bytes, or 4,095 in the wide layout.
    LongLine = 1,
    /// A byte of the line is outside 20 to 7E hexadecimal.
    ForeignByte = 2,
    /// The list's length is not a multiple of a token's, or it has over 255 tokens, or 1,023 in
    /// the wide layout.
    BadList = 3,
    /// A token is bad.
    BadToken = 4,
    /// The start is past the token count.
    BadStart = 5,
    /// An input line is no frame.
    BadFrame = 8,
    /// The nesting limit is outside [`LIMITS`].
    BadLimit = 18,
}

impl Refusal {
    /// The refusal's number (docs/FORMAT.md).
    pub fn number(self) -> u8 {
        self as u8
    }
}

/// The first refusal up to 5, in the order of their numbers, that applies to what a call is lent
/// in a layout. `list` is the token list's bytes.
pub fn refusal(layout: Layout, line: &[u8], list: &[u8], start: usize) -> Option<Refusal> {
    if line.len() > layout.longest_line() {
        return Some(Refusal::LongLine);
    }
    if !line.iter().all(|byte| (0x20..=0x7e).contains(byte)) {
        return Some(Refusal::ForeignByte);
    }
    let count = list.len() / layout.token_bytes();
    let whole = list.len() == count * layout.token_bytes();
    if !whole || count > layout.most_tokens() {
        return Some(Refusal::BadList);
    }
    if first_bad_token(line, list_tokens(layout, list)).is_some() {
        return Some(Refusal::BadToken);
    }
    (start > count).then_some(Refusal::BadStart)
}

/// Refusal 18, which stands behind all others.
pub fn limit_refusal(limit: usize) -> Option<Refusal> {
    (!LIMITS.contains(&limit)).then_some(Refusal::BadLimit)
}

#[cfg(test)]
mod tests {
    use super::*;

    /// An empty Whitespace token, so many times.
    fn blanks(layout: Layout, count: usize) -> Vec<u8> {
        let mut blank = vec![0; layout.token_bytes()];
        blank[0] = 26;
        blank.repeat(count)
    }

    #[test]
    fn each_on_its_condition_alone() {
        for layout in Layout::BOTH {
            let refusal = |line: &[u8], list: &[u8], start| refusal(layout, line, list, start);
            assert_eq!(refusal(b"", &[], 0), None);
            let most = vec![b'a'; layout.longest_line()];
            assert_eq!(refusal(&most, &[], 0), None);
            let over = [&most[..], b"a"].concat();
            assert_eq!(refusal(&over, &[], 0), Some(Refusal::LongLine));
            assert_eq!(refusal(b"\x1f", &[], 0), Some(Refusal::ForeignByte));
            assert_eq!(refusal(b"\x7f", &[], 0), Some(Refusal::ForeignByte));
            assert_eq!(refusal(b" ~", &[], 0), None);
            let one = blanks(layout, 1);
            for end in 1..one.len() {
                assert_eq!(refusal(b"", &one[..end], 0), Some(Refusal::BadList));
            }
            let count = layout.most_tokens();
            assert_eq!(refusal(b"", &blanks(layout, count), count), None);
            let over = blanks(layout, count + 1);
            assert_eq!(refusal(b"", &over, 0), Some(Refusal::BadList));
            let bad = blanks(layout, 1)
                .iter()
                .map(|byte| byte + 4)
                .collect::<Vec<u8>>();
            assert_eq!(refusal(b"", &bad, 0), Some(Refusal::BadToken));
            assert_eq!(refusal(b"", &[], 1), Some(Refusal::BadStart));
        }
    }

    #[test]
    fn limits_from_1_to_128() {
        for limit in [1, LIMIT_PROGRAM, 128] {
            assert_eq!(limit_refusal(limit), None);
        }
        for limit in [0, 129, 256 + 64, usize::MAX] {
            assert_eq!(limit_refusal(limit), Some(Refusal::BadLimit));
        }
    }

    #[test]
    fn the_lowest_number_is_given() {
        for layout in Layout::BOTH {
            let refusal = |line: &[u8], list: &[u8]| refusal(layout, line, list, 65_535);
            let long = vec![0u8; layout.longest_line() + 1];
            assert_eq!(refusal(&long, &[1]), Some(Refusal::LongLine));
            assert_eq!(refusal(b"\0", &[1]), Some(Refusal::ForeignByte));
            let bad = vec![30; layout.token_bytes()];
            let rest = [&bad[..], &[1]].concat();
            assert_eq!(refusal(b"", &rest), Some(Refusal::BadList));
            assert_eq!(refusal(b"", &bad), Some(Refusal::BadToken));
        }
    }
}
