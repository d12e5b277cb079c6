//! A reading's trees and list items as node records.

use super::{pair, Content, NodeRecord};
use crate::recover::Source;
use s68k::assembler::ast::{BinaryOperator, Expr, RegisterListItem, UnaryOperator};
use s68k::assembler::source::Span;
use s68k::assembler::token::{string_literal_bytes, NumberBase, QuoteKind, TokenKind};

/// The nodes of one reading, in the order in which they are finished.
pub struct Nodes<'a> {
    source: Source<'a>,
    /// The records so far.
    pub records: Vec<NodeRecord>,
}

impl<'a> Nodes<'a> {
    /// No nodes yet. `records` is emptied; its room is used again.
    pub fn new(source: Source<'a>, mut records: Vec<NodeRecord>) -> Self {
        records.clear();
        Self { source, records }
    }

    /// Adds a record and gives its number.
    fn add(&mut self, record: NodeRecord) -> usize {
        self.records.push(record);
        self.records.len() - 1
    }

    /// Adds a node without children.
    fn add_leaf(&mut self, kind: u8, detail: u8, span: Span, content: Content) -> usize {
        self.add(NodeRecord {
            kind,
            detail,
            left: None,
            right: None,
            span: pair(span),
            content,
        })
    }

    /// Adds a node behind its children.
    fn add_parent(
        &mut self,
        kind: u8,
        detail: u8,
        span: Span,
        left: usize,
        right: Option<usize>,
    ) -> usize {
        self.add(NodeRecord {
            kind,
            detail,
            left: Some(left),
            right,
            span: pair(span),
            content: Content::Nothing,
        })
    }

    /// Adds a tree, children first, and gives its root's number.
    pub fn add_tree(&mut self, tree: &Expr) -> usize {
        let span = tree.span();
        match tree {
            Expr::Number { value, base, .. } => {
                self.add_leaf(1, base_number(*base), span, Content::Value(*value))
            }
            Expr::CharacterLiteral { bytes, quote, .. } => {
                let own = self.literal_span(span, bytes, *quote);
                self.add_leaf(2, quote_number(*quote), span, Content::Own(pair(own)))
            }
            Expr::Symbol { name, .. } => {
                let own = self.symbol_span(span, name);
                self.add_leaf(3, 0, span, Content::Own(pair(own)))
            }
            Expr::CurrentAddress { .. } => self.add_leaf(4, 0, span, Content::Nothing),
            Expr::Unary {
                operator, operand, ..
            } => {
                let operand = self.add_tree(operand);
                self.add_parent(5, unary_number(*operator), span, operand, None)
            }
            Expr::Binary {
                operator,
                left,
                right,
                ..
            } => {
                let left = self.add_tree(left);
                let right = self.add_tree(right);
                self.add_parent(6, binary_number(*operator), span, left, Some(right))
            }
        }
    }

    /// Adds a tree that may be absent.
    pub fn add_optional_tree(&mut self, tree: Option<&Expr>) -> Option<usize> {
        tree.map(|tree| self.add_tree(tree))
    }

    /// Adds an item of a register list.
    pub fn add_item(&mut self, item: &RegisterListItem) -> usize {
        let (kind, from, to) = match item {
            RegisterListItem::Single { register, .. } => (7, register, register),
            RegisterListItem::Range { from, to, .. } => (8, from, to),
        };
        self.add(NodeRecord {
            kind,
            detail: 0,
            left: Some(from.mask_index().into()),
            right: Some(to.mask_index().into()),
            span: pair(item.span()),
            content: Content::Ends(pair(from.span), pair(to.span)),
        })
    }

    /// The literal's own span, checked against its bytes.
    fn literal_span(&self, widened: Span, bytes: &[u8], quote: QuoteKind) -> Span {
        let token = self.source.leaf(widened);
        assert_eq!(token.kind, TokenKind::StringLiteral(quote));
        assert_eq!(string_literal_bytes(token.text(self.source.line)), bytes);
        token.span
    }

    /// The symbol's own span, checked against its name.
    fn symbol_span(&self, widened: Span, name: &str) -> Span {
        let token = self.source.leaf(widened);
        assert!(matches!(
            token.kind,
            TokenKind::Identifier | TokenKind::LocalIdentifier
        ));
        assert_eq!(token.text(self.source.line), name);
        token.span
    }
}

/// A base's number in the order of `NumberBase`.
fn base_number(base: NumberBase) -> u8 {
    match base {
        NumberBase::Decimal => 0,
        NumberBase::Hexadecimal => 1,
        NumberBase::Binary => 2,
        NumberBase::Octal => 3,
    }
}

/// A quote's number in the order of `QuoteKind`.
fn quote_number(quote: QuoteKind) -> u8 {
    match quote {
        QuoteKind::Single => 0,
        QuoteKind::Double => 1,
    }
}

/// A unary operator's number in the order of `UnaryOperator`.
fn unary_number(operator: UnaryOperator) -> u8 {
    match operator {
        UnaryOperator::Minus => 0,
        UnaryOperator::Not => 1,
    }
}

/// A binary operator's number in the order of `BinaryOperator`.
fn binary_number(operator: BinaryOperator) -> u8 {
    match operator {
        BinaryOperator::Add => 0,
        BinaryOperator::Subtract => 1,
        BinaryOperator::Multiply => 2,
        BinaryOperator::Divide => 3,
        BinaryOperator::Modulo => 4,
        BinaryOperator::And => 5,
        BinaryOperator::Or => 6,
        BinaryOperator::ExclusiveOr => 7,
        BinaryOperator::ShiftLeft => 8,
        BinaryOperator::ShiftRight => 9,
    }
}
