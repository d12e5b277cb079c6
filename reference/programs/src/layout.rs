//! The two layouts of frames and answers: how a number is written, and how much may be written.
//!
//! A number is an offset, a node's number, a count, a start, a mark or a cursor. In the narrow
//! layout it has one byte, in the wide one two, low byte first. All else has as many bytes in both.

use std::fmt;

/// A layout.
#[derive(Debug, Clone, Copy, PartialEq, Eq, Default)]
pub enum Layout {
    /// Numbers of one byte.
    #[default]
    Narrow,
    /// Numbers of two bytes; the line opens with a `w`.
    Wide,
}

/// Two numbers side by side: a span's start and end, or two registers in such places.
pub type Pair = [usize; 2];

/// The letter that a wide line opens with.
pub const WIDE_LETTER: u8 = b'w';
/// How many digits a byte has.
const DIGITS: usize = 2;

impl Layout {
    /// Both layouts.
    pub const BOTH: [Layout; 2] = [Layout::Narrow, Layout::Wide];

    /// The layout of a line of input or output, which its first character alone decides, and the
    /// digits behind the letter.
    pub fn of_line(text: &[u8]) -> (Layout, &[u8]) {
        match text {
            [WIDE_LETTER, digits @ ..] => (Layout::Wide, digits),
            digits => (Layout::Narrow, digits),
        }
    }

    /// What a line opens with.
    pub const fn opening(self) -> &'static [u8] {
        match self {
            Layout::Narrow => &[],
            Layout::Wide => &[WIDE_LETTER],
        }
    }

    /// The bytes of a number.
    pub const fn number_bytes(self) -> usize {
        match self {
            Layout::Narrow => 1,
            Layout::Wide => 2,
        }
    }

    /// The largest number that can be written. In the place of a node it means that there is none.
    pub const fn largest(self) -> usize {
        match self {
            Layout::Narrow => 0xff,
            Layout::Wide => 0xffff,
        }
    }

    /// How many bytes a line may have.
    pub const fn longest_line(self) -> usize {
        match self {
            Layout::Narrow => 255,
            Layout::Wide => 4095,
        }
    }

    /// How many tokens a list may have.
    pub const fn most_tokens(self) -> usize {
        match self {
            Layout::Narrow => 255,
            Layout::Wide => 1023,
        }
    }

    /// How many records the node store has: a reading uses at most one for each token.
    pub const fn most_nodes(self) -> usize {
        self.most_tokens()
    }

    /// How many diagnostics must be free: two for each token and one more.
    pub const fn most_diagnostics(self) -> usize {
        2 * self.most_tokens() + 1
    }

    /// The bytes of a token: kind, detail, and two numbers.
    pub const fn token_bytes(self) -> usize {
        2 + 2 * self.number_bytes()
    }

    /// The bytes of a node: kind, detail, four numbers, and eight bytes.
    pub const fn node_bytes(self) -> usize {
        2 + 4 * self.number_bytes() + 8
    }

    /// The bytes of an operand: ten single ones, and ten numbers.
    pub const fn operand_bytes(self) -> usize {
        10 + 10 * self.number_bytes()
    }

    /// The bytes of a diagnostic: four single ones, and six numbers.
    pub const fn diagnostic_bytes(self) -> usize {
        4 + 6 * self.number_bytes()
    }

    /// The bytes of a reading before its records: the first, two numbers, and the diagnostics'
    /// count, which has two bytes in both layouts.
    pub const fn head_bytes(self) -> usize {
        1 + 2 * self.number_bytes() + 2
    }

    /// The bytes of a frame with a line of `length` bytes and `count` tokens.
    pub const fn frame_bytes(self, length: usize, count: usize) -> usize {
        length + self.token_bytes() * count + 4 * self.number_bytes()
    }

    /// The characters of the longest frame, refused or not. A longer line is none.
    pub const fn longest_frame(self) -> usize {
        self.characters(self.frame_bytes(self.largest(), self.largest()))
    }

    /// The characters of the longest answer.
    pub const fn longest_answer(self) -> usize {
        let nodes = self.most_nodes() * self.node_bytes();
        let diagnostics = self.most_diagnostics() * self.diagnostic_bytes();
        self.characters(self.head_bytes() + self.operand_bytes() + nodes + diagnostics)
    }

    /// The characters of a line that spells so many bytes.
    pub const fn characters(self, bytes: usize) -> usize {
        self.opening().len() + DIGITS * bytes
    }

    /// Appends a number. One that cannot be written is a mistake of ours.
    pub fn push_number(self, out: &mut Vec<u8>, number: usize) {
        assert!(number <= self.largest(), "{number} fits in a {self} number");
        out.extend(&number.to_le_bytes()[..self.number_bytes()]);
    }

    /// The number that these bytes, as many as a layout has, write.
    fn number(bytes: &[u8]) -> usize {
        bytes
            .iter()
            .rev()
            .fold(0, |high, low| high << 8 | *low as usize)
    }

    /// Appends two numbers.
    pub fn push_pair(self, out: &mut Vec<u8>, pair: Pair) {
        self.push_number(out, pair[0]);
        self.push_number(out, pair[1]);
    }

    /// Appends a node's number, or that there is none.
    pub fn push_node(self, out: &mut Vec<u8>, node: Option<usize>) {
        self.push_number(out, node.unwrap_or(self.largest()));
    }
}

impl fmt::Display for Layout {
    fn fmt(&self, out: &mut fmt::Formatter) -> fmt::Result {
        out.write_str(match self {
            Layout::Narrow => "narrow",
            Layout::Wide => "wide",
        })
    }
}

/// Bytes that are read part by part. A part that ends behind the last byte is a mistake of ours.
pub struct Parts<'a> {
    layout: Layout,
    rest: &'a [u8],
}

impl<'a> Parts<'a> {
    /// The parts of some bytes.
    pub fn new(layout: Layout, bytes: &'a [u8]) -> Self {
        let rest = bytes;
        Self { layout, rest }
    }

    /// The next bytes, if there are so many.
    pub fn bytes(&mut self, count: usize) -> Option<&'a [u8]> {
        let (bytes, rest) = self.rest.split_at_checked(count)?;
        self.rest = rest;
        Some(bytes)
    }

    /// The next number, if there is one.
    pub fn next_number(&mut self) -> Option<usize> {
        let bytes = self.bytes(self.layout.number_bytes())?;
        Some(Layout::number(bytes))
    }

    /// The next byte.
    pub fn byte(&mut self) -> u8 {
        self.bytes(1).expect("a byte")[0]
    }

    /// The next number.
    pub fn number(&mut self) -> usize {
        self.next_number().expect("a number")
    }

    /// The next two numbers.
    pub fn pair(&mut self) -> Pair {
        [self.number(), self.number()]
    }

    /// The next number, of a node that may be absent.
    pub fn node(&mut self) -> Option<usize> {
        Some(self.number()).filter(|number| *number != self.layout.largest())
    }

    /// What has not been read.
    pub fn rest(&self) -> &'a [u8] {
        self.rest
    }
}

#[cfg(test)]
mod tests {
    use super::*;

    /// Of the narrow layout and of the wide one, as the paper has them.
    fn both(size: fn(Layout) -> usize) -> [usize; 2] {
        Layout::BOTH.map(size)
    }

    #[test]
    fn sizes_and_limits() {
        assert_eq!(both(Layout::token_bytes), [4, 6]);
        assert_eq!(both(Layout::node_bytes), [14, 18]);
        assert_eq!(both(Layout::operand_bytes), [20, 30]);
        assert_eq!(both(Layout::diagnostic_bytes), [10, 16]);
        assert_eq!(both(Layout::head_bytes), [5, 7]);
        assert_eq!(both(Layout::most_diagnostics), [511, 2047]);
        assert_eq!(both(Layout::longest_frame), [2558, 917_507]);
        assert_eq!(both(Layout::longest_answer), [17_410, 102_407]);
        let valid = |layout: Layout| {
            let bytes = layout.frame_bytes(layout.longest_line(), layout.most_tokens());
            layout.characters(bytes)
        };
        assert_eq!(both(valid), [2558, 20_483]);
    }

    #[test]
    fn numbers_there_and_back() {
        for layout in Layout::BOTH {
            for number in [0, 1, 254, 255, 256, 4095, 65_534, 65_535] {
                if number > layout.largest() {
                    continue;
                }
                let mut out = Vec::new();
                layout.push_number(&mut out, number);
                assert_eq!(out.len(), layout.number_bytes());
                assert_eq!(Parts::new(layout, &out).number(), number);
            }
            let mut out = Vec::new();
            layout.push_node(&mut out, None);
            layout.push_node(&mut out, Some(7));
            let mut parts = Parts::new(layout, &out);
            assert_eq!([parts.node(), parts.node()], [None, Some(7)]);
            assert_eq!((parts.next_number(), parts.rest()), (None, &[][..]));
        }
    }

    #[test]
    fn the_low_byte_stands_first() {
        let mut out = Vec::new();
        Layout::Wide.push_pair(&mut out, [4095, 1023]);
        assert_eq!(out, [0xff, 0x0f, 0xff, 0x03]);
    }

    #[test]
    fn the_first_character_decides() {
        assert_eq!(Layout::of_line(b"w05"), (Layout::Wide, &b"05"[..]));
        assert_eq!(Layout::of_line(b"w"), (Layout::Wide, &b""[..]));
        for text in [&b""[..], b"05", b"W05", b" w05", b"0w5"] {
            assert_eq!(Layout::of_line(text), (Layout::Narrow, text));
        }
    }
}
