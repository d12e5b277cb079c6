//! Texts with their tokens, for lists of any length.

use crate::bytes::push_number;
use frames::layout::Layout::Wide;
use frames::lexer::tokens_of;
use sagdrif::Layout;

/// A token's numbers: kind, detail, start, end.
pub type Token = [usize; 4];

/// The tokens of a text, by the reference's lexer; none if a byte is foreign or a wide frame cannot hold it.
fn lexed(text: &[u8], blanks: bool) -> Option<Vec<Token>> {
    let tokens = tokens_of(Wide, text, blanks).ok()?;
    let numbers = tokens
        .iter()
        .map(|one| [one.kind as usize, one.detail as usize, one.start, one.end]);
    Some(numbers.collect())
}

/// A line and its tokens.
#[derive(Debug, Clone, Default)]
pub struct Text {
    pub line: Vec<u8>,
    pub tokens: Vec<Token>,
}

impl Text {
    pub fn of(text: &str) -> Self {
        let mut whole = Text::default();
        whole.push(text.as_bytes(), false).expect("a text");
        whole
    }

    /// Puts a text behind, none of whose tokens goes on from the ones before.
    pub fn push(&mut self, text: &[u8], blanks: bool) -> Option<()> {
        let from = self.line.len();
        let moved = |[kind, detail, start, end]: Token| [kind, detail, from + start, from + end];
        self.tokens
            .extend(lexed(text, blanks)?.into_iter().map(moved));
        self.line.extend(text);
        Some(())
    }

    /// The list's bytes.
    pub fn list(&self, layout: Layout) -> Vec<u8> {
        list(layout, &self.tokens)
    }
}

/// The bytes of a list. A number that the layout has no room for loses its high bytes.
pub fn list(layout: Layout, tokens: &[Token]) -> Vec<u8> {
    let mut out = Vec::new();
    for [kind, detail, start, end] in tokens {
        out.extend([*kind as u8, *detail as u8]);
        push_number(layout, *start, &mut out);
        push_number(layout, *end, &mut out);
    }
    out
}
