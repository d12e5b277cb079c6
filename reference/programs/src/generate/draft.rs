//! Pieces laid out in a line: offsets, gaps, the start and the mark.

use super::vocabulary::Piece;
use crate::frame::Frame;
use crate::layout::Layout;
use crate::random::Random;
use crate::tokens::{kind, list_bytes, TokenRecord};

/// A frame that can still be changed.
#[derive(Debug, Clone)]
pub struct Draft {
    /// The layout.
    pub layout: Layout,
    /// The line.
    pub line: Vec<u8>,
    /// The tokens.
    pub tokens: Vec<TokenRecord>,
    /// The start.
    pub start: usize,
    /// The mark.
    pub mark: usize,
}

impl Draft {
    /// The pieces without gaps or a mark, to be read from the place `start` on. Those that no
    /// longer fit are left out.
    pub fn tight(layout: Layout, pieces: &[Piece], start: usize) -> Self {
        let mut draft = Draft {
            layout,
            line: Vec::new(),
            tokens: Vec::new(),
            start,
            mark: layout.largest(),
        };
        for piece in pieces {
            if !draft.add(piece) {
                break;
            }
        }
        draft
    }

    /// The pieces with random gaps, a random mark, and mostly the given start.
    pub fn lay_out(random: &mut Random, layout: Layout, pieces: &[Piece], start: usize) -> Self {
        let mut draft = Draft::tight(layout, &[], start);
        let gaps = random.pick(&[Gaps::None, Gaps::None, Gaps::None, Gaps::Blanks, Gaps::Any]);
        for piece in pieces {
            draft.add_gap(random, gaps);
            if !draft.add(piece) {
                break;
            }
        }
        draft.add_gap(random, gaps);
        if draft.start > draft.tokens.len() || random.one_in(10) {
            draft.start = random.between(0, draft.tokens.len());
        }
        draft.mark = draft.random_mark(random);
        draft
    }

    /// Adds a token behind the line's end, if there is room.
    fn add(&mut self, piece: &Piece) -> bool {
        let start = self.line.len();
        let end = start + piece.text.len();
        if end > self.layout.longest_line() || self.tokens.len() == self.layout.most_tokens() {
            return false;
        }
        self.line.extend(&piece.text);
        let token = TokenRecord::new(piece.kind, piece.detail, start, end);
        self.tokens.push(token);
        true
    }

    /// Adds some bytes that belong to no token.
    fn add_gap(&mut self, random: &mut Random, gaps: Gaps) {
        if gaps == Gaps::None || random.one_in(2) {
            return;
        }
        for _ in 0..random.between(0, 2) {
            if self.line.len() < self.layout.longest_line() {
                let byte = if gaps == Gaps::Any {
                    random.line_byte()
                } else {
                    b' '
                };
                self.line.push(byte);
            }
        }
    }

    /// No mark, the place of a name that begins with `z`, any place, or any number.
    fn random_mark(&self, random: &mut Random) -> usize {
        let none = self.layout.largest();
        match random.below(8) {
            0 | 1 => self.suppressed_name(random).unwrap_or(none),
            2 => random.between(0, self.tokens.len()),
            3 => any_number(random, self.layout),
            _ => none,
        }
    }

    /// The place of a name that begins with `z`, if there is one.
    fn suppressed_name(&self, random: &mut Random) -> Option<usize> {
        let is_suppressed = |token: &TokenRecord| {
            let first = self.line.get(token.start);
            token.kind == kind::IDENTIFIER && matches!(first, Some(b'z' | b'Z'))
        };
        let places = (0..self.tokens.len()).filter(|place| is_suppressed(&self.tokens[*place]));
        let places: Vec<usize> = places.collect();
        (!places.is_empty()).then(|| random.pick(&places))
    }

    /// The frame as a line, without a line feed.
    pub fn to_line(&self) -> Vec<u8> {
        let frame = Frame {
            layout: self.layout,
            line: &self.line,
            list: &list_bytes(self.layout, &self.tokens),
            start: self.start,
            mark: self.mark,
        };
        frame.to_line()
    }
}

/// Any number of a layout. Wide ones often lie where a narrow one ends.
fn any_number(random: &mut Random, layout: Layout) -> usize {
    match layout {
        Layout::Wide if random.one_in(2) => random.pick(&[0xff, 0x100, 0x1ff, 0xff00]),
        _ => random.below(layout.largest() + 1),
    }
}

/// What stands between tokens.
#[derive(Debug, Clone, Copy, PartialEq, Eq)]
enum Gaps {
    None,
    Blanks,
    Any,
}
