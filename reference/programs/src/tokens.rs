//! Tokens, their kinds, and what makes a token bad (refusal 4).

use crate::layout::{Layout, Pair, Parts};
use s68k::assembler::source::Span;
use s68k::assembler::token::{NumberBase, QuoteKind, Token, TokenKind};

/// A token (docs/FORMAT.md). It need not be a good one.
#[derive(Debug, Clone, Copy, PartialEq, Eq)]
pub struct TokenRecord {
    /// Its kind.
    pub kind: u8,
    /// Its detail.
    pub detail: u8,
    /// The offset of its first byte.
    pub start: usize,
    /// The offset behind its last byte.
    pub end: usize,
}

impl TokenRecord {
    /// A token of a kind and a detail under a span.
    pub const fn new(kind: u8, detail: u8, start: usize, end: usize) -> Self {
        Self {
            kind,
            detail,
            start,
            end,
        }
    }

    /// Its span.
    pub fn span(&self) -> Pair {
        [self.start, self.end]
    }

    /// The token that the next bytes write.
    fn of(parts: &mut Parts) -> Self {
        let (kind, detail, [start, end]) = (parts.byte(), parts.byte(), parts.pair());
        Self::new(kind, detail, start, end)
    }
}

/// The tokens of a list's bytes. What is left behind the last whole one is no token.
pub fn list_tokens(layout: Layout, list: &[u8]) -> impl Iterator<Item = TokenRecord> + '_ {
    let records = list.chunks_exact(layout.token_bytes());
    records.map(move |bytes| TokenRecord::of(&mut Parts::new(layout, bytes)))
}

/// The bytes of a list.
pub fn list_bytes(layout: Layout, tokens: &[TokenRecord]) -> Vec<u8> {
    let mut list = Vec::with_capacity(layout.token_bytes() * tokens.len());
    for token in tokens {
        list.extend([token.kind, token.detail]);
        layout.push_pair(&mut list, token.span());
    }
    list
}

/// How many kinds there are; the kinds are 0 to 29.
pub const KINDS: usize = 30;

/// The number of a kind in the order of `TokenKind`.
pub mod kind {
    #![allow(missing_docs)]
    pub const IDENTIFIER: u8 = 0;
    pub const LOCAL_IDENTIFIER: u8 = 1;
    pub const NUMBER: u8 = 2;
    pub const STRING_LITERAL: u8 = 3;
    pub const SIZE_SUFFIX: u8 = 4;
    pub const HASH: u8 = 5;
    pub const COMMA: u8 = 6;
    pub const LEFT_PAREN: u8 = 7;
    pub const RIGHT_PAREN: u8 = 8;
    pub const LEFT_BRACKET: u8 = 9;
    pub const RIGHT_BRACKET: u8 = 10;
    pub const PLUS: u8 = 14;
    pub const MINUS: u8 = 15;
    pub const STAR: u8 = 16;
    pub const SLASH: u8 = 17;
    pub const TILDE: u8 = 23;
    pub const SHIFT_RIGHT: u8 = 25;
    pub const WHITESPACE: u8 = 26;
    pub const COMMENT: u8 = 27;
    pub const END_OF_LINE: u8 = 28;
    pub const ERROR: u8 = 29;
}

/// The names of the kinds, and the spelling of those that are signs.
const KIND_TABLE: [(&str, Option<&str>); KINDS] = [
    ("Identifier", None),
    ("LocalIdentifier", None),
    ("Number", None),
    ("StringLiteral", None),
    ("SizeSuffix", None),
    ("Hash", Some("#")),
    ("Comma", Some(",")),
    ("LeftParen", Some("(")),
    ("RightParen", Some(")")),
    ("LeftBracket", Some("[")),
    ("RightBracket", Some("]")),
    ("LeftBrace", Some("{")),
    ("RightBrace", Some("}")),
    ("Colon", Some(":")),
    ("Plus", Some("+")),
    ("Minus", Some("-")),
    ("Star", Some("*")),
    ("Slash", Some("/")),
    ("Backslash", Some("\\")),
    ("Ampersand", Some("&")),
    ("Bang", Some("!")),
    ("Pipe", Some("|")),
    ("Caret", Some("^")),
    ("Tilde", Some("~")),
    ("ShiftLeft", Some("<<")),
    ("ShiftRight", Some(">>")),
    ("Whitespace", None),
    ("Comment", None),
    ("EndOfLine", None),
    ("Error", None),
];

/// The kinds as the Rust has them. A number or a string stands here with detail 0.
const RUST_KINDS: [TokenKind; KINDS] = [
    TokenKind::Identifier,
    TokenKind::LocalIdentifier,
    TokenKind::Number(NumberBase::Decimal),
    TokenKind::StringLiteral(QuoteKind::Single),
    TokenKind::SizeSuffix,
    TokenKind::Hash,
    TokenKind::Comma,
    TokenKind::LeftParen,
    TokenKind::RightParen,
    TokenKind::LeftBracket,
    TokenKind::RightBracket,
    TokenKind::LeftBrace,
    TokenKind::RightBrace,
    TokenKind::Colon,
    TokenKind::Plus,
    TokenKind::Minus,
    TokenKind::Star,
    TokenKind::Slash,
    TokenKind::Backslash,
    TokenKind::Ampersand,
    TokenKind::Bang,
    TokenKind::Pipe,
    TokenKind::Caret,
    TokenKind::Tilde,
    TokenKind::ShiftLeft,
    TokenKind::ShiftRight,
    TokenKind::Whitespace,
    TokenKind::Comment,
    TokenKind::EndOfLine,
    TokenKind::Error,
];

/// The bases of numbers, in the order of `NumberBase`.
pub const BASES: [NumberBase; 4] = [
    NumberBase::Decimal,
    NumberBase::Hexadecimal,
    NumberBase::Binary,
    NumberBase::Octal,
];

/// The quotes of strings, in the order of `QuoteKind`.
pub const QUOTES: [QuoteKind; 2] = [QuoteKind::Single, QuoteKind::Double];

/// The name of a kind, as in `TokenKind`.
pub fn kind_name(kind: u8) -> Option<&'static str> {
    KIND_TABLE.get(kind as usize).map(|row| row.0)
}

/// How a sign is spelled; `None` for a kind that is no sign.
pub fn sign(kind: u8) -> Option<&'static str> {
    KIND_TABLE.get(kind as usize).and_then(|row| row.1)
}

/// How many details a kind has: 4 bases, 2 quotes, or the 0 that says nothing.
pub fn details(kind: u8) -> u8 {
    match kind {
        kind::NUMBER => BASES.len() as u8,
        kind::STRING_LITERAL => QUOTES.len() as u8,
        _ => 1,
    }
}

/// Why a token is bad.
#[derive(Debug, Clone, Copy, PartialEq, Eq, PartialOrd, Ord)]
pub enum TokenFault {
    /// The kind is undefined.
    Kind,
    /// The detail is undefined for its kind.
    Detail,
    /// The start exceeds the end.
    Backwards,
    /// The end exceeds the line.
    PastLine,
    /// It starts before its predecessor's end.
    Overlap,
    /// A number lacks its `prefix()`.
    NoPrefix,
    /// A name, number, string or suffix is empty.
    Empty,
    /// A sign is spelled otherwise.
    Spelling,
}

impl TokenFault {
    /// Every fault, in the order in which docs/FORMAT.md lists them.
    pub const ALL: [TokenFault; 8] = [
        TokenFault::Kind,
        TokenFault::Detail,
        TokenFault::Backwards,
        TokenFault::PastLine,
        TokenFault::Overlap,
        TokenFault::NoPrefix,
        TokenFault::Empty,
        TokenFault::Spelling,
    ];

    /// The fault in words.
    pub fn words(self) -> &'static str {
        match self {
            TokenFault::Kind => "undefined kind",
            TokenFault::Detail => "undefined detail",
            TokenFault::Backwards => "start exceeds end",
            TokenFault::PastLine => "end exceeds the line",
            TokenFault::Overlap => "starts before its predecessor's end",
            TokenFault::NoPrefix => "number without its prefix",
            TokenFault::Empty => "empty",
            TokenFault::Spelling => "sign spelled otherwise",
        }
    }
}

/// The first fault of a token, in a list whose previous token ends at `previous_end`.
pub fn token_fault(line: &[u8], token: TokenRecord, previous_end: usize) -> Option<TokenFault> {
    let TokenRecord {
        kind,
        detail,
        start,
        end,
    } = token;
    if kind as usize >= KINDS {
        return Some(TokenFault::Kind);
    }
    if detail >= details(kind) {
        return Some(TokenFault::Detail);
    }
    if start > end {
        return Some(TokenFault::Backwards);
    }
    if end > line.len() {
        return Some(TokenFault::PastLine);
    }
    if start < previous_end {
        return Some(TokenFault::Overlap);
    }
    text_fault(kind, detail, &line[start..end])
}

/// The fault of a token's text, if its kind asks something of it.
fn text_fault(kind: u8, detail: u8, text: &[u8]) -> Option<TokenFault> {
    if let Some(spelling) = sign(kind) {
        return (text != spelling.as_bytes()).then_some(TokenFault::Spelling);
    }
    if kind == kind::NUMBER {
        let prefix = BASES[detail as usize].prefix().as_bytes();
        if !text.starts_with(prefix) {
            return Some(TokenFault::NoPrefix);
        }
    }
    (kind <= kind::SIZE_SUFFIX && text.is_empty()).then_some(TokenFault::Empty)
}

/// The first bad token of a list: its place and its fault.
pub fn first_bad_token(
    line: &[u8],
    tokens: impl IntoIterator<Item = TokenRecord>,
) -> Option<(usize, TokenFault)> {
    let mut previous_end = 0;
    for (place, token) in tokens.into_iter().enumerate() {
        if let Some(fault) = token_fault(line, token, previous_end) {
            return Some((place, fault));
        }
        previous_end = token.end;
    }
    None
}

/// A good token as the Rust has it. The two flags about the line's layout are read by the
/// functions that find a line's fields, and not by `parse_operand`.
pub fn rust_token(token: TokenRecord) -> Token {
    let detail = token.detail as usize;
    let kind = match RUST_KINDS[token.kind as usize] {
        TokenKind::Number(_) => TokenKind::Number(BASES[detail]),
        TokenKind::StringLiteral(_) => TokenKind::StringLiteral(QUOTES[detail]),
        other => other,
    };
    Token::new(kind, Span::new(token.start, token.end))
}

#[cfg(test)]
mod tests {
    use super::*;

    /// The tables above, written by hand, follow the Rust's own order.
    #[test]
    fn kinds_follow_the_order_of_the_rust() {
        for (number, (name, _)) in KIND_TABLE.iter().enumerate() {
            let debug = format!("{:?}", RUST_KINDS[number]);
            assert_eq!(debug.split('(').next(), Some(*name));
        }
        let source = include_str!("../../s68k/src/assembler/token.rs");
        let (_, after) = source.split_once("pub enum TokenKind {").unwrap();
        let (body, _) = after.split_once("\n}").unwrap();
        let written = body.lines().map(str::trim).filter(|l| !l.starts_with("//"));
        let names = written.filter_map(|l| l.trim_end_matches(',').split('(').next());
        let names: Vec<&str> = names.filter(|name| !name.is_empty()).collect();
        let ours: Vec<&str> = KIND_TABLE.iter().map(|row| row.0).collect();
        assert_eq!(names, ours);
    }

    #[test]
    fn kind_numbers_have_their_names() {
        assert_eq!(kind_name(kind::SIZE_SUFFIX), Some("SizeSuffix"));
        assert_eq!(kind_name(kind::RIGHT_BRACKET), Some("RightBracket"));
        assert_eq!(kind_name(kind::PLUS), Some("Plus"));
        assert_eq!(kind_name(kind::TILDE), Some("Tilde"));
        assert_eq!(kind_name(kind::SHIFT_RIGHT), Some("ShiftRight"));
        assert_eq!(kind_name(kind::ERROR), Some("Error"));
        assert_eq!(kind_name(30), None);
    }

    #[test]
    fn each_fault() {
        use TokenFault::*;
        let line = b"$1 <<a";
        let fault = |[kind, detail]: [u8; 2], start, end| {
            token_fault(line, TokenRecord::new(kind, detail, start, end), 1)
        };
        assert_eq!(fault([30, 0], 1, 2), Some(Kind));
        assert_eq!(fault([255, 9], 9, 1), Some(Kind));
        assert_eq!(fault([2, 4], 1, 2), Some(Detail));
        assert_eq!(fault([3, 2], 1, 2), Some(Detail));
        assert_eq!(fault([0, 1], 5, 6), Some(Detail));
        assert_eq!(fault([26, 1], 2, 3), Some(Detail));
        assert_eq!(fault([0, 0], 3, 2), Some(Backwards));
        assert_eq!(fault([0, 0], 5, 7), Some(PastLine));
        assert_eq!(fault([0, 0], 0, 2), Some(Overlap));
        assert_eq!(fault([2, 1], 1, 2), Some(NoPrefix));
        assert_eq!(fault([2, 1], 1, 1), Some(NoPrefix));
        assert_eq!(fault([2, 0], 1, 1), Some(Empty));
        assert_eq!(fault([4, 0], 6, 6), Some(Empty));
        assert_eq!(fault([5, 0], 5, 6), Some(Spelling));
        assert_eq!(fault([24, 0], 3, 4), Some(Spelling));
    }

    #[test]
    fn good_tokens() {
        let line = b"$1 <<a";
        let fault = |[kind, detail]: [u8; 2], start, end, previous_end| {
            let token = TokenRecord::new(kind, detail, start, end);
            token_fault(line, token, previous_end)
        };
        assert_eq!(fault([2, 1], 0, 1, 0), None);
        assert_eq!(fault([2, 0], 0, 2, 0), None);
        assert_eq!(fault([24, 0], 3, 5, 0), None);
        for kind in 26..30 {
            assert_eq!(fault([kind, 0], 6, 6, 6), None);
            assert_eq!(fault([kind, 0], 0, 6, 0), None);
        }
    }

    #[test]
    fn lists_there_and_back() {
        let tokens = [
            TokenRecord::new(2, 3, 0, 255),
            TokenRecord::new(29, 0, 255, 255),
        ];
        for (layout, bytes) in [
            (Layout::Narrow, &[2, 3, 0, 255, 29, 0, 255, 255][..]),
            (Layout::Wide, &[2, 3, 0, 0, 255, 0, 29, 0, 255, 0, 255, 0]),
        ] {
            assert_eq!(list_bytes(layout, &tokens), bytes);
            assert!(list_tokens(layout, bytes).eq(tokens));
            assert!(list_tokens(layout, &bytes[..bytes.len() - 1]).eq([tokens[0]]));
        }
    }
}
