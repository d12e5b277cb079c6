//! The Rust's operand, tree and diagnostics as the records of docs/FORMAT.md.
//!
//! The records hold values, the same in both layouts; `bytes` writes and reads them in one.

mod bytes;
mod diagnostics;
mod nodes;
mod operand;

pub use diagnostics::{NOT_AN_ADDRESS_REGISTER, PROBLEMS};

use crate::layout::Pair;
use crate::recover::Source;
use diagnostics::diagnostic_record;
use nodes::Nodes;
use operand::operand_record;
use s68k::assembler::ast::Operand;
use s68k::assembler::diagnostics::Diagnostic;
use s68k::assembler::source::Span;

/// An absent register, one byte in both layouts.
pub const ABSENT: u8 = 0xff;
/// A suppressed address register as a base is this and its number.
pub const SUPPRESSED_BASE: u8 = 0x18;
/// The program counter as a base.
pub const PC: u8 = 0x20;
/// The suppressed program counter as a base.
pub const SUPPRESSED_PC: u8 = 0x21;

/// The operand's record.
#[derive(Debug, Clone, PartialEq, Eq)]
#[allow(missing_docs)]
pub struct OperandRecord {
    pub form: u8,
    pub span: Pair,
    pub node: Option<usize>,
    pub size: u8,
    pub base: u8,
    pub base_span: Pair,
    pub index: u8,
    pub index_register_span: Pair,
    pub index_size: u8,
    pub index_scale: u8,
    pub index_suppressed: u8,
    pub index_span: Pair,
    pub indirection: u8,
    pub outer_node: Option<usize>,
    pub outer_size: u8,
    pub special_or_long: u8,
}

/// A node's record.
#[derive(Debug, Clone, Copy, PartialEq, Eq)]
pub struct NodeRecord {
    /// Its kind.
    pub kind: u8,
    /// Its detail.
    pub detail: u8,
    /// Its left or only child; a list item's first register.
    pub left: Option<usize>,
    /// Its right child; a list item's last register.
    pub right: Option<usize>,
    /// Its span.
    pub span: Pair,
    /// Its last eight bytes.
    pub content: Content,
}

/// What the last eight bytes of a node say.
#[derive(Debug, Clone, Copy, PartialEq, Eq)]
pub enum Content {
    /// Nothing: zeros.
    Nothing,
    /// A number's value.
    Value(i64),
    /// The own span of a literal or a symbol.
    Own(Pair),
    /// The spans of a list item's first and last register.
    Ends(Pair, Pair),
    /// Bytes that a node of its kind cannot have; another program may have written them.
    Other([u8; 8]),
}

/// A diagnostic's record.
#[derive(Debug, Clone, Copy, PartialEq, Eq)]
pub struct DiagnosticRecord {
    /// Its kind.
    pub kind: u8,
    /// The shape, of kind 7.
    pub shape: u8,
    /// The problem, or kind 9's sign.
    pub problem: u8,
    /// Where it is.
    pub span: Pair,
    /// What it quotes, or kind 10's two registers.
    pub text: Pair,
    /// The parenthesis that is never closed.
    pub related: Pair,
    /// 1 if there is a related place.
    pub has_related: u8,
}

/// The span as two numbers.
fn pair(span: Span) -> Pair {
    [span.start, span.end]
}

/// The records of one reading.
#[derive(Debug, Clone, PartialEq, Eq, Default)]
pub struct Records {
    /// The operand's, if there is one.
    pub operand: Option<OperandRecord>,
    /// The nodes', in the order in which they were finished.
    pub nodes: Vec<NodeRecord>,
    /// The diagnostics', in the order in which they were raised.
    pub diagnostics: Vec<DiagnosticRecord>,
}

impl Records {
    /// Replaces these records by those of a reading.
    pub fn fill(&mut self, operand: Option<&Operand>, raised: &[Diagnostic], source: Source) {
        let mut nodes = Nodes::new(source, std::mem::take(&mut self.nodes));
        self.operand = operand.map(|operand| operand_record(operand, &mut nodes));
        self.nodes = nodes.records;
        self.diagnostics.clear();
        let records = raised
            .iter()
            .map(|raised| diagnostic_record(raised, &source));
        self.diagnostics.extend(records);
    }
}
