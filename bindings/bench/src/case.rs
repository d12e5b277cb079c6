//! An operand with all that both readers are lent, made before the clock runs.

use frames::frame::Frame;
use frames::hex;
use frames::layout::Layout as FrameLayout;
use frames::lexer::tokens_of;
use frames::records::Records;
use frames::recover::Source;
use frames::reference::answer_line;
use frames::refusal::refusal;
use frames::tokens::{list_bytes, rust_token, TokenRecord};
use s68k::assembler::parser::driver::read_operand;
use s68k::assembler::token::Token;
use sagdrif::{parse_operand_in, Answer, Layout, Refusal, LIMIT_PROGRAM};

/// A text and its tokens, for each reader in its own form. No token is marked.
pub struct Case {
    pub text: String,
    pub tokens: Vec<TokenRecord>,
    /// The list's bytes in each layout; none where it does not fit.
    narrow: Vec<u8>,
    wide: Vec<u8>,
}

/// The reference's name of a layout.
fn frame_layout(layout: Layout) -> FrameLayout {
    match layout {
        Layout::Narrow => FrameLayout::Narrow,
        Layout::Wide => FrameLayout::Wide,
    }
}

impl Case {
    pub fn new(text: &str) -> Self {
        let tokens = tokens_of(FrameLayout::Wide, text.as_bytes(), false);
        let mut case = Case {
            text: text.to_string(),
            tokens: tokens.expect("a text of an operand"),
            narrow: Vec::new(),
            wide: Vec::new(),
        };
        if case.fits(Layout::Narrow) {
            case.narrow = list_bytes(FrameLayout::Narrow, &case.tokens);
        }
        case.wide = list_bytes(FrameLayout::Wide, &case.tokens);
        case
    }

    /// Whether the layout can hold it.
    pub fn fits(&self, layout: Layout) -> bool {
        let sizes = layout.sizes();
        self.text.len() <= sizes.line_most && self.tokens.len() <= sizes.tokens_most
    }

    /// The list's bytes.
    #[inline(always)]
    fn list(&self, layout: Layout) -> &[u8] {
        match layout {
            Layout::Narrow => &self.narrow,
            Layout::Wide => &self.wide,
        }
    }

    pub fn rust_tokens(&self) -> Vec<Token> {
        self.tokens.iter().map(|token| rust_token(*token)).collect()
    }

    /// The Rust's reading with all that the proved call does, in the narrow layout where it fits.
    pub fn read_whole(&self, tokens: &mut Vec<Token>, records: &mut Records, bytes: &mut Vec<u8>) {
        let (layout, list) = match self.fits(Layout::Narrow) {
            true => (FrameLayout::Narrow, &self.narrow),
            false => (FrameLayout::Wide, &self.wide),
        };
        assert!(refusal(layout, self.text.as_bytes(), list, 0).is_none());
        let reading = read_operand(&self.text, std::mem::take(tokens), 0, None);
        *tokens = reading.tokens;
        let source = Source {
            line: &self.text,
            tokens,
            start: 0,
        };
        records.fill(reading.operand.as_ref(), &reading.diagnostics, source);
        bytes.clear();
        records
            .operand
            .iter()
            .for_each(|one| one.push(layout, bytes));
        records.nodes.iter().for_each(|one| one.push(layout, bytes));
        records
            .diagnostics
            .iter()
            .for_each(|one| one.push(layout, bytes));
    }

    /// The frame that lends the same, from the first token on.
    fn frame_line(&self, layout: Layout) -> Vec<u8> {
        let list = self.list(layout);
        let layout = frame_layout(layout);
        let frame = Frame {
            layout,
            line: self.text.as_bytes(),
            list,
            start: 0,
            mark: layout.largest(),
        };
        frame.to_line()
    }
}

/// The stores that the proved reader is lent, the same for every reading in a layout.
pub struct Stores {
    pub nodes: Vec<u8>,
    pub diagnostics: Vec<u8>,
    pub answer: Answer,
}

impl Stores {
    pub fn new(layout: Layout) -> Self {
        let sizes = layout.sizes();
        Stores {
            nodes: vec![0; sizes.nodes_bytes],
            diagnostics: vec![0; sizes.diagnostic * sizes.diagnostics_free],
            answer: Answer::new(),
        }
    }

    /// A reading from `start` on.
    #[inline(always)]
    pub fn read(&mut self, layout: Layout, case: &Case, start: usize) -> Result<(), Refusal> {
        parse_operand_in(
            layout,
            case.text.as_bytes(),
            case.list(layout),
            start,
            usize::MAX,
            LIMIT_PROGRAM,
            &mut self.nodes,
            &mut self.diagnostics,
            0,
            &mut self.answer,
        )
    }

    /// The same call with a list that has no room: all checks, and nothing else.
    #[inline(always)]
    pub fn check(&mut self, layout: Layout, case: &Case) -> Result<(), Refusal> {
        parse_operand_in(
            layout,
            case.text.as_bytes(),
            case.list(layout),
            0,
            usize::MAX,
            LIMIT_PROGRAM,
            &mut self.nodes,
            &mut [],
            0,
            &mut self.answer,
        )
    }
}

/// Whether both readers answer alike, to the last byte.
pub fn same_answer(layout: Layout, case: &Case, stores: &mut Stores) -> bool {
    stores.read(layout, case, 0).expect("no refusal");
    let (answer, sizes) = (&stores.answer, layout.sizes());
    let mut bytes = answer.line_head().to_vec();
    bytes.extend(&stores.nodes[..sizes.node * answer.nodes()]);
    bytes.extend(&stores.diagnostics[..sizes.diagnostic * answer.diagnostics()]);
    let line = [frame_layout(layout).opening(), &hex::encode(&bytes)].concat();
    line == answer_line(&case.frame_line(layout))
}
