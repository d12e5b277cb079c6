//! `parse_operand` with a nesting limit that the caller chooses, by the copy `limited` of the parser.

use crate::assembler::limited::driver;
use crate::assembler::token::Token;
use crate::reading::Reading;
use std::cell::Cell;

thread_local! {
    /// The limit of the reading that is under way. The parser has no field for it.
    static LIMIT: Cell<usize> = const { Cell::new(driver::NESTING_LIMIT) };
}

/// What `limited` compares its depth with, in the place of `MAX_NESTING_DEPTH`.
pub(crate) fn limit() -> usize {
    LIMIT.get()
}

/// Reads as [`read_operand`](crate::assembler::parser::driver::read_operand) does, where at most
/// `limit` terms may be open.
pub fn read_operand_at(
    limit: usize,
    text: &str,
    tokens: Vec<Token>,
    start: usize,
    symbol_at: Option<usize>,
) -> Reading {
    LIMIT.set(limit);
    driver::read_operand(text, tokens, start, symbol_at)
}
