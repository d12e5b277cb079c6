//! The ways of reading that are timed, each a pass over the same operands.

use crate::case::{Case, Stores};
use frames::records::Records;
use s68k::assembler::ast::Operand;
use s68k::assembler::parser::driver::{read_operand, Prepared};
use s68k::assembler::token::Token;
use sagdrif::Layout;
use std::hint::black_box;

/// The operands, and what each reader keeps from one pass to the next.
pub struct Readers<'a> {
    cases: &'a [Case],
    narrow: Stores,
    wide: Stores,
    parsers: Vec<Prepared<'a>>,
    lists: Vec<Vec<Token>>,
    records: Records,
    bytes: Vec<u8>,
    operands: Vec<Option<Operand>>,
}

impl<'a> Readers<'a> {
    /// With room for the operands of so many passes.
    pub fn new(cases: &'a [Case], repeats: usize) -> Self {
        let prepared = |case: &'a Case| Prepared::new(&case.text, case.rust_tokens(), 0, None);
        Readers {
            cases,
            narrow: Stores::new(Layout::Narrow),
            wide: Stores::new(Layout::Wide),
            parsers: cases.iter().map(prepared).collect(),
            lists: cases.iter().map(Case::rust_tokens).collect(),
            records: Records::default(),
            bytes: Vec::new(),
            operands: Vec::with_capacity(cases.len() * repeats),
        }
    }

    #[inline(always)]
    fn stores(&mut self, layout: Layout) -> (&'a [Case], &mut Stores) {
        let stores = match layout {
            Layout::Narrow => &mut self.narrow,
            Layout::Wide => &mut self.wide,
        };
        (self.cases, stores)
    }

    /// The proved reader's whole call.
    #[inline(always)]
    pub fn proved(&mut self, layout: Layout) {
        let (cases, stores) = self.stores(layout);
        for case in cases {
            let _ = black_box(stores.read(layout, black_box(case), 0));
        }
    }

    /// Its checks alone: a call that the seventh refusal ends.
    #[inline(always)]
    pub fn checks(&mut self, layout: Layout) {
        let (cases, stores) = self.stores(layout);
        for case in cases {
            let _ = black_box(stores.check(layout, black_box(case)));
        }
    }

    /// Its checks, the clearing of the node store and the answer: a call whose start is the end.
    #[inline(always)]
    pub fn cleared(&mut self, layout: Layout) {
        let (cases, stores) = self.stores(layout);
        for case in cases {
            let end = case.tokens.len();
            let _ = black_box(stores.read(layout, black_box(case), end));
        }
    }

    /// `parse_operand` of the Rust, its operand dropped in time.
    pub fn rust(&mut self) {
        for parser in &mut self.parsers {
            black_box(parser.read());
        }
    }

    /// The same with the operand kept until [`Self::forget`].
    pub fn kept(&mut self) {
        for parser in &mut self.parsers {
            self.operands.push(parser.read());
        }
    }

    /// The operand dropped in time, and the parser made and dropped for each reading.
    pub fn made(&mut self) {
        for (case, tokens) in self.cases.iter().zip(&mut self.lists) {
            let reading = read_operand(&case.text, std::mem::take(tokens), 0, None);
            black_box(&reading.operand);
            *tokens = reading.tokens;
        }
    }

    /// What the proved call does, in the narrow layout where it fits: the checks, the reading, and the records of docs/FORMAT.md, by
    /// the reference's programs.
    pub fn whole(&mut self) {
        for (case, tokens) in self.cases.iter().zip(&mut self.lists) {
            case.read_whole(tokens, &mut self.records, &mut self.bytes);
            black_box(&self.bytes);
        }
    }

    /// Drops what the Rust has raised and what was kept.
    pub fn forget(&mut self) {
        self.operands.clear();
        self.parsers
            .iter_mut()
            .for_each(Prepared::forget_diagnostics);
    }
}
