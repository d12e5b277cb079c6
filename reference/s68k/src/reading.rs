//! What one call of `parse_operand` gives, in either copy of the parser.

use crate::assembler::ast::Operand;
use crate::assembler::diagnostics::Diagnostic;
use crate::assembler::token::Token;

/// What one call of `parse_operand` gives.
pub struct Reading {
    /// The operand, if one was read.
    pub operand: Option<Operand>,
    /// The place of the first token that was not consumed.
    pub cursor: usize,
    /// What was raised, in the order in which it was raised.
    pub diagnostics: Vec<Diagnostic>,
    /// The tokens that were lent, handed back.
    pub tokens: Vec<Token>,
}
