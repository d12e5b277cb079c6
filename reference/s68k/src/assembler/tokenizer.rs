//! STUB for s68k's `tokenizer`.
//!
//! A `Parser` holds a tokenizer while it finds the fields of a line. `parse_operand` works on the
//! tokens already collected, which the driver puts there itself, and never asks for another.

use super::diagnostics::Diagnostic;
use super::source::Span;
use super::token::{Token, TokenKind};

/// Stands for the walk over one line; this one is always at the end.
pub struct Tokenizer<'a> {
    text: &'a str,
}

/// Stands for a remembered place of the walk.
#[derive(Debug, Clone, Copy)]
pub struct Mark;

impl<'a> Tokenizer<'a> {
    /// Stands for a walk over `text`.
    pub fn new(text: &'a str, _file: &str, _line_index: usize) -> Self {
        Self { text }
    }

    /// Stands for the next token: always the end of the line.
    pub fn next_token(&mut self) -> Token {
        Token::new(TokenKind::EndOfLine, Span::empty(self.text.len()))
    }

    /// Stands for remembering the place.
    pub fn mark(&self) -> Mark {
        Mark
    }

    /// Stands for going back to a place.
    pub fn rewind(&mut self, _mark: Mark) {}

    /// Stands for the offset of the walk.
    pub fn offset(&self) -> usize {
        self.text.len()
    }

    /// Stands for what the walk has raised: nothing.
    pub fn take_diagnostics(&mut self) -> Vec<Diagnostic> {
        Vec::new()
    }
}
