//! The proved reader of one 68020 operand, for Rust.
//!
//! A call lends a line, its tokens, a node store and a diagnostic list, in the narrow or the wide
//! [`Layout`]; docs/FORMAT.md has every byte of them. Every input has its result: an answer, or a
//! refusal by which no byte is written.

#![deny(missing_docs)]

/// The greatest nesting limit; the least is 1.
pub const LIMIT_MOST: usize = 128;
/// The nesting limit of the program `operands`, which is the Rust's.
pub const LIMIT_PROGRAM: usize = 64;

/// How many bytes an offset, a node's number and a count take, and with it how much a call can be lent.
/// What both layouts can hold, both read alike.
#[derive(Debug, Clone, Copy, PartialEq, Eq)]
pub enum Layout {
    /// One byte.
    Narrow,
    /// Two bytes, low first.
    Wide,
}

/// The sizes of a layout in bytes, and its counts.
#[derive(Debug, Clone, Copy, PartialEq, Eq)]
pub struct Sizes {
    /// An offset, a node's number or a count.
    pub number: usize,
    /// The longest line.
    pub line_most: usize,
    /// A token.
    pub token: usize,
    /// The tokens of the longest list.
    pub tokens_most: usize,
    /// The operand's record.
    pub operand: usize,
    /// A node record.
    pub node: usize,
    /// The least node store: a record for each token of the longest list.
    pub nodes_bytes: usize,
    /// A diagnostic record.
    pub diagnostic: usize,
    /// The diagnostic records that must be free behind the used ones.
    pub diagnostics_free: usize,
    /// The library's answer: its kind, the cursor and two counts, the operand's record, the mask.
    answer: usize,
}

const NARROW: Sizes = Sizes {
    number: 1,
    line_most: 255,
    token: 4,
    tokens_most: 255,
    operand: 20,
    node: 14,
    nodes_bytes: 3570,
    diagnostic: 10,
    diagnostics_free: 511,
    answer: 27,
};

const WIDE: Sizes = Sizes {
    number: 2,
    line_most: 4095,
    token: 6,
    tokens_most: 1023,
    operand: 30,
    node: 18,
    nodes_bytes: 18414,
    diagnostic: 16,
    diagnostics_free: 2047,
    answer: 39,
};

impl Layout {
    /// Both.
    pub const ALL: [Layout; 2] = [Layout::Narrow, Layout::Wide];

    /// The sizes.
    pub const fn sizes(self) -> Sizes {
        match self {
            Layout::Narrow => NARROW,
            Layout::Wide => WIDE,
        }
    }
}

extern "C" {
    fn sagdrif_parse_operand(
        line: *const u8,
        line_length: usize,
        tokens: *const u8,
        tokens_length: usize,
        start: usize,
        mark: usize,
        limit: usize,
        nodes: *mut u8,
        nodes_length: usize,
        diagnostics: *mut u8,
        diagnostics_length: usize,
        used: usize,
        answer: *mut u8,
        answer_length: usize,
    ) -> u8;
    fn sagdrif_parse_operand_wide(
        line: *const u8,
        line_length: usize,
        tokens: *const u8,
        tokens_length: usize,
        start: usize,
        mark: usize,
        limit: usize,
        nodes: *mut u8,
        nodes_length: usize,
        diagnostics: *mut u8,
        diagnostics_length: usize,
        used: usize,
        answer: *mut u8,
        answer_length: usize,
    ) -> u8;
}

/// What a reading gives. The library writes its own layout, which is taken apart only where it is asked for.
#[derive(Debug, Clone, Copy)]
pub struct Answer {
    layout: Layout,
    /// As many as the longer answer has; a narrow one ends before.
    bytes: [u8; WIDE.answer],
}

impl Answer {
    /// A store for an answer of either layout: no operand, at the first token.
    pub const fn new() -> Self {
        let (layout, mut bytes) = (Layout::Narrow, [0; WIDE.answer]);
        bytes[0] = 1;
        Answer { layout, bytes }
    }

    /// The layout of the answer, and of the records that were written with it.
    pub const fn layout(&self) -> Layout {
        self.layout
    }

    /// The operand, if one was read.
    pub fn operand(&self) -> Option<Operand<'_>> {
        let head = self.head();
        let (record, mask) = self.bytes[head..].split_at(self.layout.sizes().operand);
        let mask = u16::from_le_bytes([mask[0], mask[1]]);
        (self.bytes[0] == 0).then_some(Operand { record, mask })
    }

    /// The place of the first token that was not consumed.
    pub fn cursor(&self) -> usize {
        self.number(1, self.layout.sizes().number)
    }

    /// The node records used, from the store's beginning.
    pub fn nodes(&self) -> usize {
        let number = self.layout.sizes().number;
        self.number(1 + number, number)
    }

    /// The diagnostic records added behind the used ones.
    pub fn diagnostics(&self) -> usize {
        self.number(self.head() - 2, 2)
    }

    /// The beginning of the program's answer line: all before the operand's record, and that record if there is one.
    pub fn line_head(&self) -> &[u8] {
        let record = if self.bytes[0] == 0 {
            self.layout.sizes().operand
        } else {
            0
        };
        &self.bytes[..self.head() + record]
    }

    /// The bytes before the operand's record: the kind, the cursor, the nodes, and two for the diagnostics.
    fn head(&self) -> usize {
        3 + 2 * self.layout.sizes().number
    }

    /// The number of one byte or two at a place.
    fn number(&self, at: usize, length: usize) -> usize {
        let high = if length == 2 { self.bytes[at + 1] } else { 0 };
        u16::from_le_bytes([self.bytes[at], high]) as usize
    }

    /// The answer's own bytes.
    fn written(&self) -> &[u8] {
        &self.bytes[..self.layout.sizes().answer]
    }
}

impl PartialEq for Answer {
    fn eq(&self, other: &Self) -> bool {
        self.layout == other.layout && self.written() == other.written()
    }
}

impl Eq for Answer {}

impl Default for Answer {
    fn default() -> Self {
        Self::new()
    }
}

/// An operand's record, and the mask of a register list.
#[derive(Debug, Clone, Copy, PartialEq, Eq)]
pub struct Operand<'a> {
    /// The record, of [`Sizes::operand`] bytes.
    pub record: &'a [u8],
    /// Bit 0 for D0 up to bit 15 for A7; 0 without a list.
    pub mask: u16,
}

/// Why no reading took place, by the numbers of docs/FORMAT.md.
#[derive(Debug, Clone, Copy, PartialEq, Eq)]
pub enum Refusal {
    /// The line is over [`Sizes::line_most`]: 255 bytes, wide 4,095.
    LongLine = 1,
    /// A byte of the line is outside 20 to 7E hexadecimal.
    ForeignByte = 2,
    /// The list's length is not a multiple of [`Sizes::token`], 4 or wide 6, or it has over [`Sizes::tokens_most`]
    /// tokens, 255 or wide 1,023.
    BadList = 3,
    /// A token is bad.
    BadToken = 4,
    /// The start is past the token count.
    BadStart = 5,
    /// The node store is under [`Sizes::nodes_bytes`]: 3,570, wide 18,414.
    ShortNodes = 6,
    /// Fewer than [`Sizes::diagnostics_free`] whole records are free behind the used ones: 511, wide 2,047.
    ShortDiagnostics = 7,
    /// The nesting limit is outside 1 to [`LIMIT_MOST`].
    BadLimit = 18,
}

impl Refusal {
    /// What a returned number says.
    fn of(number: u8) -> Result<(), Self> {
        Err(match number {
            0 => return Ok(()),
            1 => Refusal::LongLine,
            2 => Refusal::ForeignByte,
            3 => Refusal::BadList,
            4 => Refusal::BadToken,
            5 => Refusal::BadStart,
            6 => Refusal::ShortNodes,
            7 => Refusal::ShortDiagnostics,
            18 => Refusal::BadLimit,
            _ => unreachable!("the answer store has the bytes of its layout"),
        })
    }
}

/// Reads the operand that begins at the token `start`, in the narrow layout, and writes the answer. A `mark` at or past the
/// token count means none; `limit` is how many terms may be open in each other, 1 to [`LIMIT_MOST`].
#[allow(clippy::too_many_arguments)] // what a call is lent and given
#[inline]
pub fn parse_operand(
    line: &[u8],
    tokens: &[u8],
    start: usize,
    mark: usize,
    limit: usize,
    nodes: &mut [u8],
    diagnostics: &mut [u8],
    used: usize,
    answer: &mut Answer,
) -> Result<(), Refusal> {
    let narrow = Layout::Narrow;
    parse_operand_in(
        narrow,
        line,
        tokens,
        start,
        mark,
        limit,
        nodes,
        diagnostics,
        used,
        answer,
    )
}

/// The same in either layout, which is that of the tokens, of the records and of the answer.
#[allow(clippy::too_many_arguments)] // the same and the layout
#[inline]
pub fn parse_operand_in(
    layout: Layout,
    line: &[u8],
    tokens: &[u8],
    start: usize,
    mark: usize,
    limit: usize,
    nodes: &mut [u8],
    diagnostics: &mut [u8],
    used: usize,
    answer: &mut Answer,
) -> Result<(), Refusal> {
    let function = match layout {
        Layout::Narrow => sagdrif_parse_operand,
        Layout::Wide => sagdrif_parse_operand_wide,
    };
    // SAFETY: each pointer and length are those of one slice, so none is null and the bytes are
    // there; the stores are borrowed `&mut`, so none overlaps another. The call keeps no pointer.
    let number = unsafe {
        function(
            line.as_ptr(),
            line.len(),
            tokens.as_ptr(),
            tokens.len(),
            start,
            mark,
            limit,
            nodes.as_mut_ptr(),
            nodes.len(),
            diagnostics.as_mut_ptr(),
            diagnostics.len(),
            used,
            answer.bytes.as_mut_ptr(),
            layout.sizes().answer,
        )
    };
    Refusal::of(number)?;
    answer.layout = layout;
    Ok(())
}
