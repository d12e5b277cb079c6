//! Frames and answers in words, field by field.

mod answer_words;
mod frame_words;
mod tree_words;

pub use answer_words::answer_fields;
pub use frame_words::input_words;
pub use tree_words::tree_words;

use crate::layout::Pair;
use crate::printable::printable;

/// One field of an answer.
#[derive(Debug, Clone, PartialEq, Eq)]
pub struct Field {
    /// What it is called.
    pub name: String,
    /// Its bytes, as they stand in the answer line.
    pub bytes: Vec<u8>,
    /// What it says.
    pub words: String,
    /// Whether it says that something is absent.
    pub absent: bool,
}

/// The fields that say something, a line each behind an indent.
pub fn field_lines(fields: &[Field], indent: &str) -> String {
    let said = fields.iter().filter(|field| !field.absent);
    let lines = said.map(|field| format!("{indent}{:20} {}\n", field.name, field.words));
    lines.collect()
}

/// A span, with the text under it where the line is known.
pub fn span_words([start, end]: Pair, line: Option<&[u8]>) -> String {
    let text = line.and_then(|line| line.get(start..end));
    match text {
        Some(text) => format!("{start}..{end} `{}`", printable(text)),
        None => format!("{start}..{end}"),
    }
}
