//! STUB for s68k's `names`, the tables of instructions and directives.
//!
//! `parser.rs` asks them what the operation field of a line is. `parse_operand` begins behind
//! that field and asks nothing.

/// Stands for the kinds of operand field that are read as raw text.
#[derive(Debug, Clone, Copy, PartialEq, Eq)]
pub enum TextOperandKind {
    /// A file's name.
    FileSpecification,
    /// Options of `opt`.
    OptionList,
    /// The message of `fail`.
    MessageText,
    /// Any other text.
    RawOperandField,
}

/// Stands for the test for an instruction or a directive.
pub fn is_operation_name(_name: &str) -> bool {
    false
}

/// Stands for the test for `macro`.
pub fn is_macro_start(_name: &str) -> bool {
    false
}

/// Stands for the test for `endm`.
pub fn is_macro_end(_name: &str) -> bool {
    false
}

/// Stands for the table of directives whose operand field is text.
pub fn text_operation(_name: &str) -> Option<TextOperandKind> {
    None
}

/// Stands for the test for `memory`.
pub fn takes_a_keyword(_name: &str) -> bool {
    false
}
