//! The extremes of a layout: lengths, nests, starts and marks of the frames that are read, and
//! what only a wide frame can have.

use super::table::{Expected, Section};
use crate::answer::Answer;
use crate::frame::Frame;
use crate::layout::Layout;
use crate::records::{DiagnosticRecord, Records};
use crate::tokens::{kind, TokenRecord};

/// A test of a frame that is read, and of its cursor and records.
type Test = fn(&Frame, usize, &Records) -> bool;

/// What any frame may have.
const ANY: [(&str, Test); 6] = [
    ("start inside the list", |frame, _, _| {
        frame.start > 0 && frame.start < frame.count()
    }),
    ("start at the end of a list", |frame, _, _| {
        frame.count() > 0 && frame.start == frame.count()
    }),
    ("mark on a token", |frame, _, _| frame.symbol_at().is_some()),
    ("mark past the list, not the largest", |frame, _, _| {
        frame.symbol_at().is_none() && frame.mark != frame.layout.largest()
    }),
    ("gap between tokens", |frame, _, _| {
        let behind = frame.tokens().skip(1);
        let mut pairs = frame.tokens().zip(behind);
        pairs.any(|(one, next)| one.end < next.start)
    }),
    ("empty token", |frame, _, _| {
        frame.tokens().any(|token| token.start == token.end)
    }),
];

/// What no narrow frame has.
const WIDE: [(&str, Test); 14] = [
    ("token that starts at 4095", |frame, _, _| {
        frame.tokens().any(|token| token.start == 4095)
    }),
    ("token that ends at 4095, not empty", |frame, _, _| {
        let whole = |token: TokenRecord| token.start < 4095 && token.end == 4095;
        frame.tokens().any(whole)
    }),
    ("start over 255", |frame, _, _| frame.start > 255),
    ("mark on a token over 255", |frame, _, _| {
        frame.symbol_at().is_some_and(|mark| mark > 255)
    }),
    ("mark 255, past the list", |frame, _, _| {
        frame.mark == 255 && frame.symbol_at().is_none()
    }),
    ("cursor over 255", |_, cursor, _| cursor > 255),
    ("cursor 1023", |_, cursor, _| cursor == 1023),
    ("operand that ends at 4095", |_, _, records| {
        let operand = records.operand.as_ref();
        operand.is_some_and(|operand| operand.span[1] == 4095)
    }),
    ("base that stands behind 255", |_, _, records| {
        let operand = records.operand.as_ref();
        operand.is_some_and(|operand| operand.base_span[0] > 255)
    }),
    ("index that stands behind 255", |_, _, records| {
        let operand = records.operand.as_ref();
        operand.is_some_and(|operand| operand.index_span[0] > 255)
    }),
    ("1023 nodes, the root being 1022", |_, _, records| {
        let operand = records.operand.as_ref();
        records.nodes.len() == 1023 && operand.is_some_and(|one| one.node == Some(1022))
    }),
    ("list of over 255 items", |_, _, records| {
        let operand = records.operand.as_ref();
        records.nodes.len() > 255 && operand.is_some_and(|one| one.form == 14)
    }),
    ("over 255 diagnostics", |_, _, records| {
        records.diagnostics.len() > 255
    }),
    ("related place behind 255", |_, _, records| {
        let related = |one: &DiagnosticRecord| one.related[0] > 255;
        records.diagnostics.iter().any(related)
    }),
];

/// Lengths of lines that are counted by themselves.
fn lines(layout: Layout) -> &'static [usize] {
    match layout {
        Layout::Narrow => &[0, 1, 254, 255],
        Layout::Wide => &[0, 1, 256, 4095],
    }
}

/// Lengths of lists that are counted by themselves.
fn lists(layout: Layout) -> &'static [usize] {
    match layout {
        Layout::Narrow => &[0, 1, 254, 255],
        Layout::Wide => &[0, 1, 256, 1023],
    }
}

/// Runs of opened terms that are counted by themselves.
fn nests(limit: usize) -> [usize; 3] {
    [limit - 1, limit, limit + 1]
}

/// The terms that are opened in a row, from the start on.
fn nest(frame: &Frame) -> usize {
    let opens = [kind::MINUS, kind::TILDE, kind::PLUS, kind::LEFT_PAREN];
    let read = frame.tokens().skip(frame.start);
    read.take_while(|token| opens.contains(&token.kind)).count()
}

/// The counts of extremes.
pub struct Extremes {
    layout: Layout,
    limit: usize,
    read: Section,
    refused: Section,
}

impl Extremes {
    /// Nothing counted yet of a run with this nesting limit.
    pub fn new(layout: Layout, limit: usize) -> Self {
        let mut read = Section::new("extremes of read frames");
        let mut add = |words: String| read.add(words, Expected::Always);
        for length in lines(layout) {
            add(format!("line of {length} bytes"));
        }
        for length in lists(layout) {
            add(format!("list of {length} tokens"));
        }
        for nest in nests(limit) {
            add(format!("{nest} terms opened in a row"));
        }
        for (words, _) in tests(layout) {
            add(words.to_string());
        }
        Self {
            layout,
            limit,
            read,
            refused: refused_section(layout),
        }
    }

    /// Counts a frame and its answer, whose line has so many characters.
    pub fn count(&mut self, frame: &Frame, characters: usize, answer: &Answer) {
        match answer {
            Answer::Reading { cursor, records } => self.count_read(frame, *cursor, records),
            Answer::Refused(number) if self.layout == Layout::Wide => {
                self.count_refused(frame, characters, *number)
            }
            Answer::Refused(_) => {}
        }
    }

    fn count_read(&mut self, frame: &Frame, cursor: usize, records: &Records) {
        let lengths = lines(self.layout)
            .iter()
            .map(|one| *one == frame.line.len());
        let counts = lists(self.layout).iter().map(|one| *one == frame.count());
        let opened = nest(frame);
        let nests = nests(self.limit).map(|one| one == opened);
        let others = tests(self.layout).map(|(_, test)| test(frame, cursor, records));
        let all = lengths.chain(counts).chain(nests).chain(others);
        for (row, took_place) in all.enumerate() {
            self.read.hit_if(took_place, row);
        }
    }

    fn count_refused(&mut self, frame: &Frame, characters: usize, number: u8) {
        let (length, count) = (frame.line.len(), frame.count());
        let rows = [
            number == 1 && length == 4096,
            number == 3 && count == 1024,
            number == 2 && count == 1024,
            number == 5 && count > 255,
            number == 4 && count > 255,
            number == 1 && length == 65_535,
            number == 3 && characters > 20_483,
            characters == self.layout.longest_frame(),
        ];
        for (row, took_place) in rows.into_iter().enumerate() {
            self.refused.hit_if(took_place, row);
        }
    }

    /// The sections, in the order of the table.
    pub fn sections(&self) -> [&Section; 2] {
        [&self.read, &self.refused]
    }
}

/// The tests of a layout's frames.
fn tests(layout: Layout) -> impl Iterator<Item = (&'static str, Test)> {
    let wide = match layout {
        Layout::Narrow => &[][..],
        Layout::Wide => &WIDE,
    };
    ANY.iter().chain(wide).copied()
}

/// A narrow frame cannot hold what these rows speak of.
fn refused_section(layout: Layout) -> Section {
    let mut section = Section::new("extremes of refused frames");
    if layout == Layout::Narrow {
        return section;
    }
    for words in [
        "1 line of 4096 bytes",
        "3 list of 1024 tokens",
        "2 foreign byte beside 1024 tokens",
        "5 beside over 255 tokens",
        "4 beside over 255 tokens",
    ] {
        section.add(words.to_string(), Expected::Always);
    }
    for words in [
        "1 line of 65535 bytes",
        "3 in a line of over 20483 characters",
        "the longest line that is a frame",
    ] {
        section.add(words.to_string(), Expected::InFarLines);
    }
    section
}
