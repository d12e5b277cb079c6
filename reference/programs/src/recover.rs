//! Spans that the records (docs/FORMAT.md) hold and the Rust's tree and diagnostics do not.
//!
//! The Rust keeps a name, a literal or a quoted text as a `String`; a record keeps the place
//! where it stands. Each function here says from what the place follows, and checks that the
//! text found there is the Rust's own. A wrong place stops the program; it is never passed on.

use s68k::assembler::source::Span;
use s68k::assembler::token::{Token, TokenKind};

/// What a reading was given. The line is ASCII, so columns are byte offsets.
#[derive(Clone, Copy)]
pub struct Source<'a> {
    /// The line.
    pub line: &'a str,
    /// The whole token list. Starts and ends never fall from one token to the next.
    pub tokens: &'a [Token],
    /// The place where the reading started.
    pub start: usize,
}

impl Source<'_> {
    /// The token of a name, a number or a literal whose node has the span `widened`.
    ///
    /// Groups widen a leaf's span, and a stepped-over `+` leaves it alone, so what stands in the
    /// span before the leaf is parentheses and pluses only. Behind the leaf anything may stand:
    /// `(name+?)` is the leaf `name`, since a failed right side is dropped.
    pub fn leaf(&self, widened: Span) -> Token {
        let first = self.first_from(widened.start).max(self.start);
        let leaf = self.tokens[first..]
            .iter()
            .find(|token| !matches!(token.kind, TokenKind::LeftParen | TokenKind::Plus))
            .expect("a leaf has a token");
        assert!(leaf.span.end <= widened.end, "a leaf lies in its own span");
        *leaf
    }

    /// The span of `text`, quoted by a diagnostic that ends where the text ends.
    ///
    /// So do the texts of every kind but 13: kinds 1, 8 and 11 quote the token they point at, 2
    /// the end of the suffix they point at, 3 a name and that suffix behind it, 7 the last token
    /// read, and 12 points at the empty place behind the token it quotes. The end and the length
    /// give the start.
    pub fn ending_at(&self, end: usize, text: &str) -> Span {
        let span = Span::new(end - text.len(), end);
        assert_eq!(span.text(self.line), text, "a quoted text stands there");
        span
    }

    /// The span of the term behind the unary plus at `plus`, given the term's text.
    ///
    /// The term begins at the next token, but where that is another plus: `++5` has the term `5`
    /// for both, since the tree has no node for a plus. So it begins at the first token that is
    /// none. The length gives the end. An empty text means that no term was read; every term
    /// has at least one byte.
    pub fn term_behind_plus(&self, plus: Span, term: &str) -> Option<Span> {
        if term.is_empty() {
            return None;
        }
        let first = self.first_from(plus.start);
        let behind = self.tokens[first..]
            .iter()
            .skip_while(|token| token.span != plus)
            .find(|token| token.kind != TokenKind::Plus)
            .expect("a term follows the plus");
        let start = behind.span.start;
        let span = Span::new(start, start + term.len());
        assert_eq!(span.text(self.line), term, "a term stands behind its plus");
        Some(span)
    }

    /// Whether a token of the list has exactly this span.
    pub fn is_token(&self, span: Span) -> bool {
        let from = self.first_from(span.start);
        let same_start = |token: &&Token| token.span.start == span.start;
        let mut there = self.tokens[from..].iter().take_while(same_start);
        there.any(|token| token.span == span)
    }

    /// The place of the first token that starts at `offset` or later.
    fn first_from(&self, offset: usize) -> usize {
        self.tokens
            .partition_point(|token| token.span.start < offset)
    }
}
