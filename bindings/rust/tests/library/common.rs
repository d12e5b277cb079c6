//! What the tests share: a call with its stores, its frame, and its answer as the program's line.

use crate::bytes::{push_number, Bytes};
use frames::hex;
use sagdrif::{Answer, Layout, Refusal, LIMIT_PROGRAM};

/// What a line of the program's input opens with, and its answer too.
const WIDE_SIGN: &[u8] = b"w";

/// What a call lends and gives.
#[derive(Debug, Clone, PartialEq, Eq)]
pub struct Input {
    pub layout: Layout,
    pub line: Vec<u8>,
    pub tokens: Vec<u8>,
    pub start: usize,
    pub mark: usize,
    pub limit: usize,
    pub nodes: Vec<u8>,
    pub diagnostics: Vec<u8>,
    pub used: usize,
}

impl Input {
    /// With the program's nesting limit, and stores that are just long enough, filled with a byte that no record begins with.
    pub fn new(layout: Layout, line: &[u8], tokens: &[u8], start: usize, mark: usize) -> Self {
        let sizes = layout.sizes();
        Input {
            layout,
            line: line.to_vec(),
            tokens: tokens.to_vec(),
            start,
            mark,
            limit: LIMIT_PROGRAM,
            nodes: vec![0xa5; sizes.nodes_bytes],
            diagnostics: vec![0xa5; sizes.diagnostic * sizes.diagnostics_free],
            used: 0,
        }
    }

    /// What a line of the program's input lends and gives, if it is a frame.
    pub fn of_line(text: &[u8]) -> Option<Self> {
        let (layout, digits) = of_sign(text);
        let bytes = hex::decode(digits).ok()?;
        let rest = &bytes[..];
        let mut bytes = Bytes { layout, rest };
        let length = bytes.number()?;
        let line = bytes.take(length)?;
        let count = bytes.number()?;
        let tokens = bytes.take(layout.sizes().token * count)?;
        let (start, mark) = (bytes.number()?, bytes.number()?);
        let whole = bytes.rest.is_empty();
        whole.then(|| Input::new(layout, line, tokens, start, mark))
    }

    /// The line of the program's input, where it can hold the line, the tokens and the start. A mark that it cannot hold is past the list.
    pub fn to_line(&self) -> Vec<u8> {
        let sizes = self.layout.sizes();
        let most = (1 << (8 * sizes.number)) - 1;
        let count = self.tokens.len() / sizes.token;
        assert!(self.line.len().max(count).max(self.start) <= most);
        let mut bytes = Vec::new();
        push_number(self.layout, self.line.len(), &mut bytes);
        bytes.extend(&self.line);
        push_number(self.layout, count, &mut bytes);
        bytes.extend(&self.tokens);
        push_number(self.layout, self.start, &mut bytes);
        push_number(self.layout, self.mark.min(most), &mut bytes);
        [sign(self.layout), &hex::encode(&bytes)].concat()
    }

    /// A narrow call with its numbers in the wide layout, and stores of its own.
    pub fn widened(&self) -> Self {
        assert_eq!(self.layout, Layout::Narrow);
        let pad = |token: &[u8]| [token[0], token[1], token[2], 0, token[3], 0];
        let tokens: Vec<[u8; 6]> = self.tokens.chunks_exact(4).map(pad).collect();
        let tokens = tokens.as_flattened();
        Input::new(Layout::Wide, &self.line, tokens, self.start, self.mark).at_limit(self.limit)
    }

    /// With another nesting limit.
    pub fn at_limit(self, limit: usize) -> Self {
        Input { limit, ..self }
    }

    /// Makes the call. A refusal must leave all as it was.
    pub fn read(&mut self) -> Result<Answer, Refusal> {
        let before = self.clone();
        let mut answer = Answer::new();
        let refused = sagdrif::parse_operand_in(
            self.layout,
            &self.line,
            &self.tokens,
            self.start,
            self.mark,
            self.limit,
            &mut self.nodes,
            &mut self.diagnostics,
            self.used,
            &mut answer,
        );
        match refused {
            Ok(()) => self.stores_are_told(&before, answer),
            Err(_) => assert_eq!(
                (&*self, answer),
                (&before, Answer::new()),
                "a refusal writes nothing"
            ),
        }
        refused.map(|()| answer)
    }

    /// Every byte that no record takes is zero or stays (docs/FORMAT.md).
    fn stores_are_told(&self, before: &Input, answer: Answer) {
        assert_eq!(answer.layout(), self.layout);
        let sizes = self.layout.sizes();
        let used = sizes.node * answer.nodes();
        assert!(self.nodes[used..sizes.nodes_bytes]
            .iter()
            .all(|byte| *byte == 0));
        assert_eq!(
            self.nodes[sizes.nodes_bytes..],
            before.nodes[sizes.nodes_bytes..]
        );
        let (from, to) = (
            sizes.diagnostic * self.used,
            sizes.diagnostic * (self.used + answer.diagnostics()),
        );
        assert_eq!(self.diagnostics[..from], before.diagnostics[..from]);
        assert_eq!(self.diagnostics[to..], before.diagnostics[to..]);
    }

    /// The used node records.
    pub fn node_records(&self, answer: &Answer) -> &[u8] {
        &self.nodes[..self.layout.sizes().node * answer.nodes()]
    }

    /// The added diagnostic records.
    pub fn diagnostic_records(&self, answer: &Answer) -> &[u8] {
        let size = self.layout.sizes().diagnostic;
        &self.diagnostics[size * self.used..][..size * answer.diagnostics()]
    }

    /// The program's answer line.
    pub fn answer_line(&mut self) -> Vec<u8> {
        let answer = match self.read() {
            Ok(answer) => answer,
            Err(refusal) => return refused_line(self.layout, refusal as u8),
        };
        let mut bytes = answer.line_head().to_vec();
        bytes.extend(self.node_records(&answer));
        bytes.extend(self.diagnostic_records(&answer));
        [sign(self.layout), &hex::encode(&bytes)].concat()
    }
}

fn sign(layout: Layout) -> &'static [u8] {
    match layout {
        Layout::Narrow => b"",
        Layout::Wide => WIDE_SIGN,
    }
}

/// The layout that a line's first character tells, and what stands behind the sign.
fn of_sign(text: &[u8]) -> (Layout, &[u8]) {
    match text.strip_prefix(WIDE_SIGN) {
        Some(digits) => (Layout::Wide, digits),
        None => (Layout::Narrow, text),
    }
}

/// The program's line for a refusal.
pub fn refused_line(layout: Layout, number: u8) -> Vec<u8> {
    [sign(layout), &hex::encode(&[2, number])].concat()
}

/// The library's answer to a line of the program's input, at a nesting limit. Refusal 8 is the program's alone.
pub fn answer_line_at(text: &[u8], limit: usize) -> Vec<u8> {
    match Input::of_line(text) {
        Some(input) => input.at_limit(limit).answer_line(),
        None => refused_line(of_sign(text).0, 8),
    }
}

/// A line of input as a message has it.
pub fn shown(line: &[u8]) -> String {
    String::from_utf8_lossy(line).into_owned()
}
