//! A frame for a reader: text, start, mark and tokens.

use super::span_words;
use crate::frame::{Frame, FrameBytes};
use crate::layout::Layout;
use crate::printable::printable;
use crate::refusal::{refusal, Refusal};
use crate::tokens::{first_bad_token, kind, kind_name, TokenRecord};
use crate::{names, tokens};
use std::fmt::Write;

/// How much is shown of an input line that is no frame.
const SHOWN: usize = 120;

/// An input line in words: the frame's parts, or why it is no frame.
pub fn input_words(text: &[u8]) -> String {
    let bytes = FrameBytes::of_line(text);
    let frame = bytes.as_ref().map_err(|fault| *fault);
    match frame.and_then(FrameBytes::frame) {
        Ok(frame) => frame_words(&frame),
        Err(fault) => {
            let shown = &text[..text.len().min(SHOWN)];
            let dots = if text.len() > SHOWN { "..." } else { "" };
            format!("no frame: {fault}\nline    `{}`{dots}\n", printable(shown))
        }
    }
}

/// The parts of a frame, a line each. Of one that is refused for its length the end is left out.
fn frame_words(frame: &Frame) -> String {
    let mut out = String::new();
    let _ = writeln!(out, "layout  {}", frame.layout);
    let length = frame.line.len();
    let text = printable(&frame.line[..length.min(Layout::Wide.longest_line())]);
    let _ = writeln!(out, "text    `{text}` ({length} bytes)");
    let _ = writeln!(out, "start   {}", frame.start);
    let _ = match frame.symbol_at() {
        Some(place) => writeln!(out, "mark    {place}"),
        None => writeln!(out, "mark    none ({})", frame.mark),
    };
    if let Some(words) = refusal_words(frame) {
        let _ = writeln!(out, "refused {words}");
    }
    let _ = writeln!(out, "tokens  {}", frame.count());
    let shown = Layout::Wide.most_tokens();
    for (place, token) in frame.tokens().take(shown).enumerate() {
        let _ = writeln!(out, "{}", token_words(place, token, frame.line));
    }
    out
}

/// A token: place, kind, detail, span and text.
fn token_words(place: usize, token: TokenRecord, line: &[u8]) -> String {
    let TokenRecord { kind, detail, .. } = token;
    let name = match kind_name(kind) {
        Some(name) => name.to_string(),
        None => format!("kind {kind}"),
    };
    let detail = match kind {
        kind::NUMBER => names::from_zero(&names::BASES, detail),
        kind::STRING_LITERAL => names::from_zero(&names::QUOTES, detail),
        _ if detail == 0 => String::new(),
        _ => format!("detail {detail}"),
    };
    let named = format!("{name} {detail}");
    format!(
        "{place:7} {named:24} {}",
        span_words(token.span(), Some(line))
    )
}

/// Why a frame is refused, with the place.
fn refusal_words(frame: &Frame) -> Option<String> {
    let refusal = refusal(frame.layout, frame.line, frame.list, frame.start)?;
    let reason = names::refusal(refusal.number());
    let place = match refusal {
        Refusal::ForeignByte => {
            let foreign = |byte: &u8| !(0x20..=0x7e).contains(byte);
            let at = frame.line.iter().position(foreign)?;
            format!("at {at} of the line")
        }
        Refusal::BadToken => {
            let (place, fault) = first_bad_token(frame.line, frame.tokens())?;
            format!("token {place}, {}", tokens::TokenFault::words(fault))
        }
        _ => return Some(reason),
    };
    Some(format!("{reason}: {place}"))
}
