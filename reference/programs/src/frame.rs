//! A frame: what one call of the reader is lent and given, as one line of hexadecimal.
//!
//! In order: the line's length, the line, the token count, the tokens, the start, the mark. The
//! length, the count, the start and the mark are numbers of the frame's layout. A wide frame opens
//! with a `w`, which is no digit.

use crate::hex::{self, HexFault};
use crate::layout::{Layout, Parts};
use crate::tokens::{list_tokens, TokenRecord};
use std::fmt;

/// The parts of a frame. They need not be valid.
#[derive(Debug, Clone, Copy, PartialEq, Eq)]
pub struct Frame<'a> {
    /// How its numbers are written.
    pub layout: Layout,
    /// The line.
    pub line: &'a [u8],
    /// The token list's bytes, in that layout.
    pub list: &'a [u8],
    /// The place where the reading starts.
    pub start: usize,
    /// The place that is read as a symbol; one at or past the token count means none.
    pub mark: usize,
}

/// Why an input line is no frame: refusal 8.
#[derive(Debug, Clone, Copy, PartialEq, Eq)]
pub enum FrameFault {
    /// The input line is no sequence of bytes.
    Digits(HexFault),
    /// The bytes end before the line's length, the line, or the token count.
    Short { bytes: usize },
    /// The counts give another length.
    Length { bytes: usize, wanted: usize },
    /// The input line is longer than any frame of its layout.
    TooLong(Layout),
}

impl fmt::Display for FrameFault {
    fn fmt(&self, out: &mut fmt::Formatter) -> fmt::Result {
        match self {
            FrameFault::Digits(fault) => fault.fmt(out),
            FrameFault::Short { bytes } => {
                write!(out, "{bytes} bytes, which end before the token count")
            }
            FrameFault::Length { bytes, wanted } => {
                write!(out, "{bytes} bytes, but its counts give {wanted}")
            }
            FrameFault::TooLong(layout) => {
                write!(out, "more than {} characters", layout.longest_frame())
            }
        }
    }
}

impl<'a> Frame<'a> {
    /// The frame that `bytes` spell.
    pub fn of(layout: Layout, bytes: &'a [u8]) -> Result<Self, FrameFault> {
        let short = FrameFault::Short { bytes: bytes.len() };
        let mut parts = Parts::new(layout, bytes);
        let length = parts.next_number().ok_or(short)?;
        let line = parts.bytes(length).ok_or(short)?;
        let count = parts.next_number().ok_or(short)?;
        let wanted = layout.frame_bytes(length, count);
        if bytes.len() != wanted {
            let bytes = bytes.len();
            return Err(FrameFault::Length { bytes, wanted });
        }
        let list = parts.bytes(count * layout.token_bytes());
        Ok(Frame {
            layout,
            line,
            list: list.expect("the counts give the length"),
            start: parts.number(),
            mark: parts.number(),
        })
    }

    /// The tokens.
    pub fn tokens(&self) -> impl Iterator<Item = TokenRecord> + 'a {
        list_tokens(self.layout, self.list)
    }

    /// How many tokens there are.
    pub fn count(&self) -> usize {
        self.list.len() / self.layout.token_bytes()
    }

    /// The bytes of the frame. A line or a list longer than a frame can hold is a mistake of ours.
    pub fn to_bytes(&self) -> Vec<u8> {
        let length = self.layout.frame_bytes(self.line.len(), self.count());
        let mut bytes = Vec::with_capacity(length);
        self.layout.push_number(&mut bytes, self.line.len());
        bytes.extend(self.line);
        self.layout.push_number(&mut bytes, self.count());
        bytes.extend(self.list);
        self.layout.push_pair(&mut bytes, [self.start, self.mark]);
        bytes
    }

    /// The frame as a line, without a line feed.
    pub fn to_line(&self) -> Vec<u8> {
        let mut line = self.layout.opening().to_vec();
        hex::push(&mut line, &self.to_bytes());
        line
    }

    /// The mark as a place of the list.
    pub fn symbol_at(&self) -> Option<usize> {
        (self.mark < self.count()).then_some(self.mark)
    }
}

/// The layout of a line of input and the bytes that it spells.
#[derive(Debug, Clone, PartialEq, Eq)]
pub struct FrameBytes {
    /// The layout.
    pub layout: Layout,
    /// The bytes.
    pub bytes: Vec<u8>,
}

impl FrameBytes {
    /// Of a line of input, if it is not too long for a frame.
    pub fn of_line(text: &[u8]) -> Result<Self, FrameFault> {
        let mut bytes = Vec::new();
        let layout = decode_into(text, &mut bytes)?;
        Ok(Self { layout, bytes })
    }

    /// The frame that the bytes spell.
    pub fn frame(&self) -> Result<Frame<'_>, FrameFault> {
        Frame::of(self.layout, &self.bytes)
    }
}

/// The line of the frame that a line of input is, if it is one.
pub fn frame_text(text: &[u8]) -> Option<Vec<u8>> {
    let bytes = FrameBytes::of_line(text).ok()?;
    let frame = bytes.frame().ok()?;
    Some(frame.line.to_vec())
}

/// Puts the bytes of a line of input into `bytes`, which is emptied first, and gives its layout.
pub fn decode_into(text: &[u8], bytes: &mut Vec<u8>) -> Result<Layout, FrameFault> {
    let (layout, digits) = Layout::of_line(text);
    if text.len() > layout.longest_frame() {
        return Err(FrameFault::TooLong(layout));
    }
    hex::decode_into(digits, bytes).map_err(FrameFault::Digits)?;
    Ok(layout)
}

#[cfg(test)]
mod tests {
    use super::*;
    use crate::tokens::list_bytes;

    const NAME: TokenRecord = TokenRecord::new(0, 0, 0, 2);

    #[test]
    fn a_frame_there_and_back() {
        for layout in Layout::BOTH {
            let frame = Frame {
                layout,
                line: b"d0",
                list: &list_bytes(layout, &[NAME]),
                start: 1,
                mark: layout.largest(),
            };
            let bytes = frame.to_bytes();
            assert_eq!(Frame::of(layout, &bytes), Ok(frame));
            for end in 0..bytes.len() {
                assert!(Frame::of(layout, &bytes[..end]).is_err());
            }
            assert!(Frame::of(layout, &[&bytes[..], &[0]].concat()).is_err());
            let line = FrameBytes::of_line(&frame.to_line()).unwrap();
            assert_eq!(line, FrameBytes { layout, bytes });
        }
    }

    #[test]
    fn the_longest_frame() {
        for layout in Layout::BOTH {
            let most = layout.largest();
            let frame = Frame {
                layout,
                line: &vec![b'1'; most],
                list: &vec![0; most * layout.token_bytes()],
                start: 0,
                mark: 0,
            };
            let mut line = frame.to_line();
            assert_eq!(line.len(), layout.longest_frame());
            assert!(FrameBytes::of_line(&line).unwrap().frame().is_ok());
            line.extend(b"00");
            let fault = FrameBytes::of_line(&line);
            assert_eq!(fault, Err(FrameFault::TooLong(layout)));
        }
    }

    #[test]
    fn a_mark_past_the_list_means_none() {
        for layout in Layout::BOTH {
            let mut frame = Frame {
                layout,
                line: b"d0",
                list: &list_bytes(layout, &[NAME]),
                start: 0,
                mark: 0,
            };
            assert_eq!(frame.symbol_at(), Some(0));
            for mark in [1, 255, layout.largest()] {
                frame.mark = mark;
                assert_eq!(frame.symbol_at(), None);
            }
        }
    }
}
