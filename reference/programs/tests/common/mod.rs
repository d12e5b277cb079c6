//! A reading by the reference, with its parts at hand.

#![allow(dead_code)]

use frames::answer::Answer;
use frames::frame::Frame;
use frames::layout::{Layout, Pair};
use frames::lexer::tokens_of;
use frames::records::{Content, DiagnosticRecord, NodeRecord, OperandRecord, Records};
use frames::reference::{answer_line, answer_line_at};
use frames::tokens::{list_bytes, TokenRecord};
use frames::words::tree_words;

/// No mark, in both layouts: no list here has so many tokens.
pub const NO_MARK: usize = 255;

/// What the reference answered to a valid frame.
pub struct Read {
    pub cursor: usize,
    pub records: Records,
    line: Vec<u8>,
}

/// Reads a text from its first token on, without a mark.
pub fn read(text: &str) -> Read {
    read_marked(text, 0, NO_MARK)
}

/// Reads a text from `start` on, with a mark.
pub fn read_marked(text: &str, start: usize, mark: usize) -> Read {
    read_tokens(text, &tokens_in(Layout::Narrow, text), start, mark)
}

/// Reads any tokens of a line, in both layouts, in which the reading must be the same.
pub fn read_tokens(line: &str, tokens: &[TokenRecord], start: usize, mark: usize) -> Read {
    let [narrow, wide] = Layout::BOTH.map(|layout| {
        let frame = frame_line(layout, line, tokens, start, mark);
        read_by(answer_line, layout, line, &frame)
    });
    assert_eq!(
        (wide.cursor, wide.records),
        (narrow.cursor, narrow.records.clone()),
        "{line}"
    );
    narrow
}

/// Reads a text that a wide line can hold.
pub fn read_wide(text: &str) -> Read {
    read_wide_at(text, 0, Layout::Wide.largest())
}

/// Reads a text that a wide line can hold, from `start` on, with a mark.
pub fn read_wide_at(text: &str, start: usize, mark: usize) -> Read {
    let tokens = tokens_in(Layout::Wide, text);
    let frame = frame_line(Layout::Wide, text, &tokens, start, mark);
    read_by(answer_line, Layout::Wide, text, &frame)
}

/// Reads a text as [`read`] does, with a nesting limit.
pub fn read_at(text: &str, limit: usize) -> Read {
    let layout = Layout::Narrow;
    let frame = frame_line(layout, text, &tokens_in(layout, text), 0, NO_MARK);
    read_by(|frame| answer_line_at(frame, limit), layout, text, &frame)
}

/// The frame of a text, from its first token on, without a mark.
pub fn frame_of(layout: Layout, text: &str) -> Vec<u8> {
    frame_line(layout, text, &tokens_in(layout, text), 0, layout.largest())
}

/// The line of a frame.
pub fn frame_line(
    layout: Layout,
    line: &str,
    tokens: &[TokenRecord],
    start: usize,
    mark: usize,
) -> Vec<u8> {
    let frame = Frame {
        layout,
        line: line.as_bytes(),
        list: &list_bytes(layout, tokens),
        start,
        mark,
    };
    frame.to_line()
}

fn tokens_in(layout: Layout, text: &str) -> Vec<TokenRecord> {
    tokens_of(layout, text.as_bytes(), false).expect("a text for the lexer")
}

fn read_by(
    answer_line: impl Fn(&[u8]) -> Vec<u8>,
    layout: Layout,
    line: &str,
    frame: &[u8],
) -> Read {
    match Answer::of_line(&answer_line(frame)) {
        Ok((given, Answer::Reading { cursor, records })) if given == layout => Read {
            cursor,
            records,
            line: line.as_bytes().to_vec(),
        },
        other => panic!("no reading: {other:?}"),
    }
}

impl Read {
    /// The operand's form, 0 for no operand.
    pub fn form(&self) -> u8 {
        self.records.operand.as_ref().map_or(0, |one| one.form)
    }

    /// The operand's record.
    pub fn operand(&self) -> &OperandRecord {
        self.records.operand.as_ref().expect("an operand")
    }

    /// The operand's tree as an expression.
    pub fn tree(&self) -> String {
        let root = self.operand().node.expect("a tree");
        tree_words(&self.records.nodes, root, Some(&self.line))
    }

    /// The node of the operand.
    pub fn root(&self) -> NodeRecord {
        self.records.nodes[self.operand().node.expect("a tree")]
    }

    /// The own span of a name, under its node's span.
    pub fn spans_of_root(&self) -> (Pair, Pair) {
        match self.root().content {
            Content::Own(own) => (self.root().span, own),
            other => panic!("no own span: {other:?}"),
        }
    }

    /// The kinds of the diagnostics, in order.
    pub fn kinds(&self) -> Vec<u8> {
        let kinds = self.records.diagnostics.iter().map(|one| one.kind);
        kinds.collect()
    }

    /// A diagnostic.
    pub fn diagnostic(&self, number: usize) -> DiagnosticRecord {
        self.records.diagnostics[number]
    }

    /// Shape and problem of the only diagnostic, which is a MalformedOperand.
    pub fn malformed(&self) -> (u8, u8) {
        assert_eq!(self.kinds(), [7]);
        let only = self.diagnostic(0);
        (only.shape, only.problem)
    }

    /// The span of a diagnostic.
    pub fn span(&self, number: usize) -> (usize, usize) {
        self.diagnostic(number).span.into()
    }

    /// The text span of a diagnostic.
    pub fn text(&self, number: usize) -> (usize, usize) {
        self.diagnostic(number).text.into()
    }

    /// The related span of a diagnostic, if it has one.
    pub fn related(&self, number: usize) -> Option<(usize, usize)> {
        let record = self.diagnostic(number);
        (record.has_related == 1).then_some(record.related.into())
    }
}
