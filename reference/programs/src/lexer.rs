//! A small lexer, so that people can write `4(a0)` where a program wants a frame.
//!
//! It is no port of the assembler's: it follows what `token.rs` says of each kind. Blanks leave a
//! gap between two tokens, as they do inside an operand's parentheses; on request they become
//! tokens instead.

use crate::layout::Layout;
use crate::tokens::{kind, sign, TokenRecord};
use s68k::assembler::token::{is_name_continuation, is_name_start};
use std::fmt;

/// Why a text has no frame.
#[derive(Debug, Clone, Copy, PartialEq, Eq)]
pub enum TextFault {
    /// A byte outside 20 to 7E hexadecimal, at this offset.
    ForeignByte(usize, u8),
    /// The text is longer than a line of this layout.
    TooLong(Layout),
    /// The text has more tokens than a list of this layout.
    TooMany(Layout),
}

impl fmt::Display for TextFault {
    fn fmt(&self, out: &mut fmt::Formatter) -> fmt::Result {
        match self {
            TextFault::ForeignByte(at, byte) => {
                let column = at + 1;
                write!(out, "column {column}: byte {byte:02x} is outside 20 to 7e")
            }
            TextFault::TooLong(layout) => {
                let most = layout.longest_line();
                let column = most + 1;
                write!(out, "column {column}: a line has at most {most} bytes")
            }
            TextFault::TooMany(layout) => {
                let most = layout.most_tokens();
                write!(out, "a list has at most {most} tokens")
            }
        }
    }
}

/// The tokens of a text that a line of a layout can hold.
pub fn tokens_of(
    layout: Layout,
    text: &[u8],
    keep_whitespace: bool,
) -> Result<Vec<TokenRecord>, TextFault> {
    let foreign = |byte: &u8| !(0x20..=0x7e).contains(byte);
    if let Some(at) = text.iter().position(foreign) {
        return Err(TextFault::ForeignByte(at, text[at]));
    }
    if text.len() > layout.longest_line() {
        return Err(TextFault::TooLong(layout));
    }
    let tokens = all_tokens(text, keep_whitespace);
    match tokens.len() > layout.most_tokens() {
        true => Err(TextFault::TooMany(layout)),
        false => Ok(tokens),
    }
}

/// The tokens of a text of bytes that a line may hold.
fn all_tokens(text: &[u8], keep_whitespace: bool) -> Vec<TokenRecord> {
    let mut tokens: Vec<TokenRecord> = Vec::new();
    let mut at = 0;
    while at < text.len() {
        let suffix_may_follow = tokens
            .last()
            .is_some_and(|last| last.end == at && takes_a_suffix(last.kind));
        let (kind, detail, length) = next_token(&text[at..], suffix_may_follow);
        let end = at + length;
        if kind != kind::WHITESPACE || keep_whitespace {
            tokens.push(TokenRecord::new(kind, detail, at, end));
        }
        at = end;
    }
    tokens
}

/// Whether a `.` right behind a token of this kind begins a size suffix.
fn takes_a_suffix(kind: u8) -> bool {
    kind <= kind::STRING_LITERAL
        || [kind::RIGHT_PAREN, kind::RIGHT_BRACKET, kind::STAR].contains(&kind)
}

/// Kind, detail and length of the token that `rest`, which is not empty, begins with.
fn next_token(rest: &[u8], suffix_may_follow: bool) -> (u8, u8, usize) {
    let name_length = |from: usize| from + run(&rest[from..], is_name_byte);
    let second_starts_a_name = rest.get(1).is_some_and(|byte| is_name_start(*byte as char));
    match rest[0] {
        b' ' => (kind::WHITESPACE, 0, run(rest, |byte| byte == b' ')),
        b';' => (kind::COMMENT, 0, rest.len()),
        b'.' if suffix_may_follow => (kind::SIZE_SUFFIX, 0, name_length(1)),
        b'.' if second_starts_a_name => (kind::LOCAL_IDENTIFIER, 0, name_length(1)),
        b'0'..=b'9' => (kind::NUMBER, 0, name_length(0)),
        b'$' => (kind::NUMBER, 1, name_length(1)),
        b'%' => (kind::NUMBER, 2, name_length(1)),
        b'@' => (kind::NUMBER, 3, name_length(1)),
        b'\'' => (kind::STRING_LITERAL, 0, literal_length(rest)),
        b'"' => (kind::STRING_LITERAL, 1, literal_length(rest)),
        byte if is_name_start(byte as char) => (kind::IDENTIFIER, 0, name_length(0)),
        _ => sign_token(rest),
    }
}

/// The sign that `rest` begins with, or an Error token of one byte.
fn sign_token(rest: &[u8]) -> (u8, u8, usize) {
    for kind in kind::HASH..=kind::SHIFT_RIGHT {
        let spelling = sign(kind).expect("a sign").as_bytes();
        if rest.starts_with(spelling) {
            return (kind, 0, spelling.len());
        }
    }
    (kind::ERROR, 0, 1)
}

/// The length of a quoted literal: to its closing quote, or to the end of the text. A doubled
/// quote does not close it.
fn literal_length(rest: &[u8]) -> usize {
    let quote = rest[0];
    let mut at = 1;
    while at < rest.len() {
        let closes = rest[at] == quote && rest.get(at + 1) != Some(&quote);
        if closes {
            return at + 1;
        }
        at += if rest[at] == quote { 2 } else { 1 };
    }
    rest.len()
}

fn is_name_byte(byte: u8) -> bool {
    is_name_continuation(byte as char)
}

/// How many bytes at the beginning of `rest` are wanted ones.
fn run(rest: &[u8], wanted: impl Fn(u8) -> bool) -> usize {
    rest.iter().take_while(|byte| wanted(**byte)).count()
}

#[cfg(test)]
mod tests {
    use super::*;
    use crate::tokens::{first_bad_token, kind_name};

    /// The tokens as `kind:text`, for comparing by eye.
    fn spelled(text: &str) -> Vec<String> {
        let tokens = tokens_of(Layout::Narrow, text.as_bytes(), false).unwrap();
        let show = |token: &TokenRecord| {
            let part = &text[token.start..token.end];
            format!("{}:{part}", kind_name(token.kind).unwrap())
        };
        tokens.iter().map(show).collect()
    }

    #[test]
    fn names_numbers_and_suffixes() {
        let seen = spelled("$1f.w .loop %10 a_1.length");
        let wanted = [
            "Number:$1f",
            "SizeSuffix:.w",
            "LocalIdentifier:.loop",
            "Number:%10",
            "Identifier:a_1",
            "SizeSuffix:.length",
        ];
        assert_eq!(seen, wanted);
    }

    #[test]
    fn literals_signs_and_errors() {
        let seen = spelled("'it''s'<<1<\"a;b\"?;end");
        let wanted = [
            "StringLiteral:'it''s'",
            "ShiftLeft:<<",
            "Number:1",
            "Error:<",
            "StringLiteral:\"a;b\"",
            "Error:?",
            "Comment:;end",
        ];
        assert_eq!(seen, wanted);
        assert_eq!(spelled("'open"), ["StringLiteral:'open"]);
        assert_eq!(spelled("'"), ["StringLiteral:'"]);
        assert_eq!(spelled("''"), ["StringLiteral:''"]);
        assert_eq!(spelled("'''"), ["StringLiteral:'''"]);
    }

    #[test]
    fn every_text_gives_good_tokens() {
        let bytes: Vec<u8> = (0x20..=0x7e).collect();
        for first in &bytes {
            for second in &bytes {
                let text = [*first, *second, b'.', *first];
                let tokens = tokens_of(Layout::Narrow, &text, true).unwrap();
                assert_eq!(tokens.last().unwrap().end, 4);
                assert_eq!(first_bad_token(&text, tokens), None);
            }
        }
    }

    #[test]
    fn faults_have_their_place() {
        for layout in Layout::BOTH {
            let count = |byte, length| {
                let text = vec![byte; length];
                tokens_of(layout, &text, false).map(|tokens| tokens.len())
            };
            let foreign = TextFault::ForeignByte(1, 9);
            assert_eq!(tokens_of(layout, b"a\tb", false), Err(foreign));
            let (line, list) = (layout.longest_line(), layout.most_tokens());
            assert_eq!(count(b'1', line), Ok(1));
            assert_eq!(count(b'1', line + 1), Err(TextFault::TooLong(layout)));
            assert_eq!(count(b'-', list), Ok(list));
            let fault = match layout {
                Layout::Narrow => TextFault::TooLong(layout),
                Layout::Wide => TextFault::TooMany(layout),
            };
            assert_eq!(count(b'-', list + 1), Err(fault));
        }
    }
}
