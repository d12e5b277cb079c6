//! Diagnostics as their records.

use super::{pair, DiagnosticRecord};
use crate::layout::Pair;
use crate::recover::Source;
use s68k::assembler::ast::Register;
use s68k::assembler::diagnostics::{Diagnostic, DiagnosticKind, OperandShape};
use s68k::assembler::source::{Location, Span};

/// The problem texts of `MalformedOperand`, number 1 first. Number 2 is built around a name.
pub const PROBLEMS: [&str; 11] = [
    "an immediate carries no size: the size goes on the operation, as in `move.w #5,d0`, \
     and `#5.l` only keeps `move.l #5,d0` from becoming a `moveq`",
    "is not an address register",
    "the `)` is missing",
    "the displacement is missing",
    "the base register is missing",
    "the index register is missing",
    "the scale after `*` must be 1, 2, 4 or 8",
    "the `]` is missing",
    "the index register goes inside the brackets or after them, not both",
    "a displacement is missing",
    "a base register or an index register is missing",
];

/// The number of the problem that quotes a token.
pub const NOT_AN_ADDRESS_REGISTER: u8 = 2;

/// A problem's number and the text that it quotes.
fn problem_number(problem: &str) -> (u8, Option<&str>) {
    if let Some(place) = PROBLEMS.iter().position(|text| *text == problem) {
        return (place as u8 + 1, None);
    }
    let quoted = problem
        .strip_prefix('`')
        .and_then(|rest| rest.strip_suffix("` is not an address register"))
        .unwrap_or_else(|| panic!("`{problem}` is no problem that `parse_operand` raises"));
    (NOT_AN_ADDRESS_REGISTER, Some(quoted))
}

/// A shape's number, from 1 in the order of `OperandShape`.
fn shape_number(shape: OperandShape) -> u8 {
    match shape {
        OperandShape::Immediate => 1,
        OperandShape::Indirect => 2,
        OperandShape::Postincrement => 3,
        OperandShape::Predecrement => 4,
        OperandShape::Displacement => 5,
        OperandShape::Index => 6,
        OperandShape::PcDisplacement => 7,
        OperandShape::PcIndex => 8,
        OperandShape::MemoryIndirect => 9,
        OperandShape::Absolute => 10,
        OperandShape::RegisterList => 11,
        OperandShape::GroupedExpression => 12,
        OperandShape::RegisterPair => 13,
        OperandShape::BitField => 14,
    }
}

/// The mask index of a register that the Rust names.
fn named_register(name: &str) -> u8 {
    Register::parse(name, Span::empty(0))
        .expect("the name of a register")
        .mask_index()
}

/// The span of a location on our one line.
fn location_span(location: &Location) -> Span {
    assert_eq!(location.line, 0);
    Span::new(location.column, location.end_column)
}

/// The first three bytes of a diagnostic's record and its text span, or kind 10's registers.
fn diagnostic_head(kind: &DiagnosticKind, span: Span, source: &Source) -> ([u8; 3], Pair) {
    let quote = |text: &str| pair(source.ending_at(span.end, text));
    match kind {
        DiagnosticKind::NumberTooLarge { text } => ([1, 0, 0], quote(text)),
        DiagnosticKind::UnknownSizeSuffix { suffix } => ([2, 0, 0], quote(suffix)),
        DiagnosticKind::DotInName { name } => ([3, 0, 0], quote(name)),
        DiagnosticKind::OperandExpected => ([4, 0, 0], [0; 2]),
        DiagnosticKind::UnclosedParenthesis => ([5, 0, 0], [0; 2]),
        DiagnosticKind::NestingTooDeep { .. } => ([6, 0, 0], [0; 2]),
        DiagnosticKind::MalformedOperand { shape, problem } => {
            let (number, quoted) = problem_number(problem);
            let head = [7, shape_number(*shape), number];
            (head, quoted.map_or([0; 2], quote))
        }
        DiagnosticKind::UnexpectedTokenInOperand { found } => ([8, 0, 0], quote(found)),
        DiagnosticKind::RegisterExpectedInRegisterList { after } => {
            let after = u8::try_from(*after).expect("a `-` or a `/`");
            ([9, 0, after], [0; 2])
        }
        DiagnosticKind::RegisterRangeOutOfOrder { from, to } => {
            let registers = [named_register(from), named_register(to)];
            ([10, 0, 0], registers.map(usize::from))
        }
        DiagnosticKind::RegisterInExpression { register } => ([11, 0, 0], quote(register)),
        DiagnosticKind::ExpressionExpected { after } => ([12, 0, 0], quote(after)),
        DiagnosticKind::PlusIsNotAUnaryOperator { term } => {
            let term = source.term_behind_plus(span, term);
            ([13, 0, 0], term.map_or([0; 2], pair))
        }
        other => panic!("`parse_operand` does not raise {}", other.code()),
    }
}

/// The record of a diagnostic.
pub fn diagnostic_record(diagnostic: &Diagnostic, source: &Source) -> DiagnosticRecord {
    let span = location_span(&diagnostic.location);
    let (head, text) = diagnostic_head(&diagnostic.kind, span, source);
    check_text(head, span, text, source);
    assert!(diagnostic.related.len() < 2, "at most one related place");
    let related = diagnostic.related.first();
    let [kind, shape, problem] = head;
    DiagnosticRecord {
        kind,
        shape,
        problem,
        span: pair(span),
        text,
        related: related.map_or([0; 2], |(location, _)| pair(location_span(location))),
        has_related: u8::from(related.is_some()),
    }
}

/// What the choices of the records say of a text beyond that it stands there.
fn check_text(head: [u8; 3], span: Span, text: Pair, source: &Source) {
    let text_span = Span::new(text[0], text[1]);
    match head {
        [1 | 8 | 11, ..] => assert_eq!(text_span, span, "the token itself is quoted"),
        [12, ..] | [7, _, NOT_AN_ADDRESS_REGISTER] => {
            assert!(source.is_token(text_span), "a whole token is quoted")
        }
        _ => {}
    }
}
