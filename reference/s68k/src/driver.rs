//! Calls the private `Parser::parse_operand`.
//!
//! This file is a child module of each compiled copy of `parser.rs` (see `build.rs`), so it sees
//! `Parser` and its fields. It adds nothing to the reading: it fills a parser in and empties it.

use super::{Parser, MAX_NESTING_DEPTH};
use crate::assembler::ast::Operand;
use crate::assembler::token::Token;
use crate::reading::Reading;

/// The constant of this copy: 64, unless `REFERENCE_NESTING_LIMIT` named another for `parser`.
pub const NESTING_LIMIT: usize = MAX_NESTING_DEPTH;

/// Reads one operand of `tokens` from the place `start` on, at depth 0.
///
/// `symbol_at` is the place whose name is no suppressed register, as in the parser's own field.
pub fn read_operand(
    text: &str,
    tokens: Vec<Token>,
    start: usize,
    symbol_at: Option<usize>,
) -> Reading {
    let mut parser = Parser::new(text, "", 0);
    parser.tokens = tokens;
    parser.index = start;
    parser.symbol_at = symbol_at;
    let operand = parser.parse_operand();
    assert_eq!(parser.depth, 0, "every term that was opened is closed");
    Reading {
        operand,
        cursor: parser.index,
        diagnostics: parser.diagnostics,
        tokens: parser.tokens,
    }
}

/// A parser that reads the same tokens again and again, for measuring `parse_operand` alone.
pub struct Prepared<'a> {
    parser: Parser<'a>,
    start: usize,
}

impl<'a> Prepared<'a> {
    /// Filled in as for [`read_operand`].
    pub fn new(
        text: &'a str,
        tokens: Vec<Token>,
        start: usize,
        symbol_at: Option<usize>,
    ) -> Self {
        let mut parser = Parser::new(text, "", 0);
        parser.tokens = tokens;
        parser.symbol_at = symbol_at;
        Self { parser, start }
    }

    /// One call of `parse_operand`.
    pub fn read(&mut self) -> Option<Operand> {
        self.parser.index = self.start;
        self.parser.parse_operand()
    }

    /// Drops what the calls so far have raised.
    pub fn forget_diagnostics(&mut self) {
        self.parser.diagnostics.clear();
    }
}
