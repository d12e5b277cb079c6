//! The numbers of the records (docs/FORMAT.md), in words.

use crate::records::{ABSENT, PC, SUPPRESSED_BASE, SUPPRESSED_PC};

/// Forms, number 1 first.
pub const FORMS: [&str; 14] = [
    "immediate",
    "data register",
    "address register",
    "special register",
    "indirect",
    "postincrement",
    "predecrement",
    "displacement",
    "index",
    "PC displacement",
    "PC index",
    "full index",
    "absolute",
    "register list",
];

/// Kinds of diagnostics, number 1 first, as in `DiagnosticKind`.
pub const DIAGNOSTICS: [&str; 13] = [
    "NumberTooLarge",
    "UnknownSizeSuffix",
    "DotInName",
    "OperandExpected",
    "UnclosedParenthesis",
    "NestingTooDeep",
    "MalformedOperand",
    "UnexpectedTokenInOperand",
    "RegisterExpectedInRegisterList",
    "RegisterRangeOutOfOrder",
    "RegisterInExpression",
    "ExpressionExpected",
    "PlusIsNotAUnaryOperator",
];

/// Shapes, number 1 first, as in `OperandShape`.
pub const SHAPES: [&str; 14] = [
    "an immediate operand",
    "an indirect operand",
    "a postincrement operand",
    "a predecrement operand",
    "a displacement operand",
    "an indexed operand",
    "a PC-relative operand",
    "a PC-relative indexed operand",
    "a memory indirect operand",
    "an absolute operand",
    "a register list",
    "a parenthesised expression",
    "a register pair",
    "a bit field",
];

/// Refusals with their numbers.
pub const REFUSALS: [(u8, &str); 9] = [
    (1, "long line"),
    (2, "foreign byte"),
    (3, "bad list"),
    (4, "bad token"),
    (5, "bad start"),
    (6, "short nodes"),
    (7, "short diagnostics"),
    (8, "bad frame"),
    (18, "bad limit"),
];

/// Kinds of nodes, number 1 first.
pub const NODES: [&str; 8] = [
    "number",
    "literal",
    "symbol",
    "current address",
    "unary",
    "binary",
    "single",
    "range",
];

/// Sizes, number 1 first, as in `SizeSuffix`.
pub const SIZES: [&str; 4] = ["byte .b", "word .w", "long .l", "short .s"];
/// Indirections, number 0 first, as in `Indirection`.
pub const INDIRECTIONS: [&str; 3] = ["none", "preindexed", "postindexed"];
/// Special registers, number 1 first, as in `SpecialRegister`.
pub const SPECIAL: [&str; 10] = [
    "sr", "ccr", "usp", "sfc", "dfc", "vbr", "cacr", "caar", "msp", "isp",
];
/// Bases of numbers, number 0 first, as in `NumberBase`.
pub const BASES: [&str; 4] = ["decimal", "hexadecimal", "binary", "octal"];
/// Quotes of literals, number 0 first, as in `QuoteKind`.
pub const QUOTES: [&str; 2] = ["single", "double"];
/// Unary operators, number 0 first, as in `UnaryOperator`.
pub const UNARY: [&str; 2] = ["-", "~"];
/// Binary operators, number 0 first, as in `BinaryOperator`.
pub const BINARY: [&str; 10] = ["+", "-", "*", "/", "\\", "&", "|", "^", "<<", ">>"];

/// The word of a number that counts from 0.
pub fn from_zero(words: &[&str], number: u8) -> String {
    match words.get(number as usize) {
        Some(word) => word.to_string(),
        None => format!("{number} (not defined)"),
    }
}

/// The word of a number that counts from 1.
pub fn from_one(words: &[&str], number: u8) -> String {
    match words.get((number as usize).wrapping_sub(1)) {
        Some(word) => format!("{number} {word}"),
        None => format!("{number} (not defined)"),
    }
}

/// A refusal.
pub fn refusal(number: u8) -> String {
    match REFUSALS.iter().find(|row| row.0 == number) {
        Some((_, name)) => format!("{number} {name}"),
        None => format!("{number} (not defined)"),
    }
}

/// A register, as base, index, or an item's end.
pub fn register(number: u8) -> String {
    match number {
        0..=7 => format!("d{number}"),
        8..=15 => format!("a{}", number - 8),
        SUPPRESSED_BASE..=0x1f => format!("za{}", number - SUPPRESSED_BASE),
        PC => "pc".to_string(),
        SUPPRESSED_PC => "zpc".to_string(),
        ABSENT => "none".to_string(),
        _ => format!("{number} (not defined)"),
    }
}

/// A register in the place of a number, as a list item's first or last one.
pub fn register_in_number(number: Option<usize>) -> String {
    match number.map(u8::try_from) {
        Some(Ok(number)) => register(number),
        Some(Err(_)) => "over 255 (not defined)".to_string(),
        None => "none".to_string(),
    }
}

#[cfg(test)]
mod tests {
    use super::*;

    /// The names inside `enum NAME { ... }` of a source text.
    fn variants(source: &str, name: &str) -> Vec<String> {
        let (_, after) = source.split_once(&format!("pub enum {name} {{\n")).unwrap();
        let (body, _) = after.split_once("\n}\n").unwrap();
        let top = body
            .lines()
            .filter(|line| line.starts_with("    ") && !line.starts_with("     "));
        let names = top.map(|line| line.trim().trim_end_matches([',', '{', ' ', '}']));
        let names = names.filter(|name| !name.is_empty() && !name.starts_with("//"));
        names.map(str::to_string).collect()
    }

    #[test]
    fn diagnostics_follow_the_enum() {
        let source = include_str!("../../s68k/src/assembler/diagnostics.rs");
        let all = variants(source, "DiagnosticKind");
        let from = all.iter().position(|name| name == "NumberTooLarge");
        let raised = all[from.unwrap()..]
            .iter()
            .filter(|name| DIAGNOSTICS.contains(&name.as_str()));
        assert_eq!(raised.collect::<Vec<_>>(), DIAGNOSTICS);
        assert_eq!(variants(source, "OperandShape").len(), SHAPES.len());
        for shape in SHAPES {
            assert!(source.contains(&format!("\"{shape}\"")), "{shape}");
        }
    }

    #[test]
    fn trees_follow_the_enums() {
        let source = include_str!("../../s68k/src/assembler/ast.rs");
        assert_eq!(variants(source, "Expr").len(), 6);
        assert_eq!(variants(source, "BinaryOperator").len(), BINARY.len());
        assert_eq!(variants(source, "Operand")[13], "RegisterList");
        let special = variants(source, "SpecialRegister");
        let special: Vec<String> = special.iter().map(|name| name.to_lowercase()).collect();
        assert_eq!(special, SPECIAL);
    }

    #[test]
    fn refusals_in_words() {
        assert_eq!(refusal(1), "1 long line");
        assert_eq!(refusal(18), "18 bad limit");
        assert_eq!(refusal(9), "9 (not defined)");
    }

    #[test]
    fn registers_in_words() {
        assert_eq!(register(0), "d0");
        assert_eq!(register(15), "a7");
        assert_eq!(register(0x18), "za0");
        assert_eq!(register(0x1f), "za7");
        assert_eq!(register(0x21), "zpc");
        assert_eq!(register(0xff), "none");
        assert_eq!(register(0x30), "48 (not defined)");
        assert_eq!(register_in_number(Some(15)), "a7");
        assert_eq!(register_in_number(Some(0x100)), "over 255 (not defined)");
        assert_eq!(register_in_number(None), "none");
    }
}
