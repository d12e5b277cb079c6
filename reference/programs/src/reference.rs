//! The reference's answer to a line of input: the refusals, then the real `parse_operand`.
//!
//! Without a nesting limit the unchanged Rust reads. With one, 64 too, the copy of it reads that is
//! given the limit at run time.

use crate::answer::{push_reading, push_refusal};
use crate::frame::{decode_into, Frame};
use crate::layout::Layout;
use crate::records::Records;
use crate::recover::Source;
use crate::refusal::{limit_refusal, refusal, Refusal};
use crate::tokens::rust_token;
use s68k::assembler::parser::driver;
use s68k::assembler::token::Token;
use s68k::nesting::read_operand_at;
use s68k::reading::Reading;

/// Answers lines of input. It keeps its stores from one line to the next.
#[derive(Default)]
pub struct Reference {
    limit: Option<usize>,
    bytes: Vec<u8>,
    tokens: Vec<Token>,
    records: Records,
}

impl Reference {
    /// With a nesting limit.
    pub fn at_limit(limit: usize) -> Self {
        Reference {
            limit: Some(limit),
            ..Self::default()
        }
    }

    /// Appends the answer to a line of input to `out`, without a line feed. It has the line's
    /// layout.
    pub fn answer(&mut self, text: &[u8], out: &mut Vec<u8>) {
        let (layout, _) = Layout::of_line(text);
        match self.read(text) {
            Ok(cursor) => push_reading(out, layout, cursor, &self.records),
            Err(refusal) => push_refusal(out, layout, refusal.number()),
        }
    }

    /// Reads a line of input into `self.records` and gives the cursor.
    fn read(&mut self, text: &[u8]) -> Result<usize, Refusal> {
        let layout = decode_into(text, &mut self.bytes).map_err(|_| Refusal::BadFrame)?;
        let frame = Frame::of(layout, &self.bytes).map_err(|_| Refusal::BadFrame)?;
        let start = frame.start;
        if let Some(refusal) = refusal(layout, frame.line, frame.list, start) {
            return Err(refusal);
        }
        if let Some(refusal) = self.limit.and_then(limit_refusal) {
            return Err(refusal);
        }
        let line = std::str::from_utf8(frame.line).expect("bytes 20 to 7E are UTF-8");
        self.tokens.clear();
        self.tokens.extend(frame.tokens().map(rust_token));
        let lent = std::mem::take(&mut self.tokens);
        let reading = read_operand(self.limit, line, lent, start, frame.symbol_at());
        self.tokens = reading.tokens;
        let source = Source {
            line,
            tokens: &self.tokens,
            start,
        };
        self.records
            .fill(reading.operand.as_ref(), &reading.diagnostics, source);
        Ok(reading.cursor)
    }
}

/// One reading, without a nesting limit or with one.
pub fn read_operand(
    limit: Option<usize>,
    line: &str,
    tokens: Vec<Token>,
    start: usize,
    symbol_at: Option<usize>,
) -> Reading {
    match limit {
        Some(limit) => read_operand_at(limit, line, tokens, start, symbol_at),
        None => driver::read_operand(line, tokens, start, symbol_at),
    }
}

/// The answer line to one line of input.
pub fn answer_line(text: &[u8]) -> Vec<u8> {
    answer_by(Reference::default(), text)
}

/// The answer line to one line of input, with a nesting limit.
pub fn answer_line_at(text: &[u8], limit: usize) -> Vec<u8> {
    answer_by(Reference::at_limit(limit), text)
}

fn answer_by(mut reference: Reference, text: &[u8]) -> Vec<u8> {
    let mut out = Vec::new();
    reference.answer(text, &mut out);
    out
}
