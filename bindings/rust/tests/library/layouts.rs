//! A narrow call and the same one in the wide layout give one reading: equal numbers behind the two layouts' bytes.

use crate::bytes::Bytes;
use crate::common::{shown, Input};
use crate::recorded::recorded_lines;
use frames::generate::input_line_at;
use sagdrif::{Answer, Layout, Refusal, LIMIT_MOST, LIMIT_PROGRAM};

/// A record's numbers, in order. An absent node is `None`.
type Values = Vec<Option<usize>>;

/// What a reading gives, as numbers.
#[derive(Debug, PartialEq, Eq)]
struct Reading {
    cursor: usize,
    operand: Option<Values>,
    nodes: Vec<Values>,
    diagnostics: Vec<Values>,
}

/// A record that is taken apart.
struct Record<'a> {
    bytes: Bytes<'a>,
    values: Values,
}

impl<'a> Record<'a> {
    fn new(layout: Layout, rest: &'a [u8]) -> Self {
        Record {
            bytes: Bytes { layout, rest },
            values: Vec::new(),
        }
    }

    /// Parts of one byte in both layouts: kinds, sizes, flags, the operand's registers.
    fn single(mut self, count: usize) -> Self {
        let bytes = self.bytes.take(count).expect("so many bytes");
        self.values
            .extend(bytes.iter().map(|byte| Some(*byte as usize)));
        self
    }

    /// Offsets, and registers that stand in the place of one.
    fn numbers(mut self, count: usize) -> Self {
        for _ in 0..count {
            let number = self.bytes.number().expect("so many numbers");
            self.values.push(Some(number));
        }
        self
    }

    /// A node's number, or none.
    fn node(mut self) -> Self {
        let absent = (1 << (8 * self.bytes.layout.sizes().number)) - 1;
        let number = self.bytes.number().expect("a node's number");
        self.values.push((number != absent).then_some(number));
        self
    }

    /// What is left is zeros.
    fn end(self) -> Values {
        assert!(self.bytes.rest.iter().all(|byte| *byte == 0));
        self.values
    }
}

/// Form, span, node, size, base and span, index register and span, its size, scale and suppression, its whole span, indirection, outer
/// node, outer size, special register or long.
fn operand_values(layout: Layout, record: &[u8]) -> Values {
    let left = Record::new(layout, record).single(1).numbers(2).node();
    let base = left.single(2).numbers(2);
    let index = base.single(1).numbers(2).single(3).numbers(2);
    let outer = index.single(1).node().single(2);
    assert!(outer.bytes.rest.is_empty());
    outer.end()
}

/// The last eight bytes are a value, a span, nothing or two spans, by the kind.
fn node_values(layout: Layout, record: &[u8]) -> Values {
    let head = Record::new(layout, record).single(2);
    match record[0] {
        1 => head.node().node().numbers(2).single(8).end(),
        2 | 3 => head.node().node().numbers(2).numbers(2).end(),
        4..=6 => head.node().node().numbers(2).end(),
        7 | 8 => head.numbers(2).numbers(2).numbers(4).end(),
        kind => panic!("no node has the kind {kind}"),
    }
}

/// Kind, shape, problem, span, text or registers, related, flag.
fn diagnostic_values(layout: Layout, record: &[u8]) -> Values {
    let whole = Record::new(layout, record).single(3).numbers(6).single(1);
    assert!(whole.bytes.rest.is_empty());
    whole.end()
}

/// The registers of a list's items, a bit each.
fn mask_of(nodes: &[Values]) -> u16 {
    let items = nodes.iter().filter(|node| node[0] >= Some(7));
    let registers = items.flat_map(|item| item[2].unwrap()..=item[3].unwrap());
    registers.fold(0, |mask, register| mask | 1 << register)
}

fn values_of(input: &Input, answer: Answer) -> Reading {
    let (layout, sizes) = (input.layout, input.layout.sizes());
    let nodes = input.node_records(&answer).chunks(sizes.node);
    let nodes: Vec<Values> = nodes.map(|record| node_values(layout, record)).collect();
    let diagnostics = input.diagnostic_records(&answer).chunks(sizes.diagnostic);
    let operand = answer.operand();
    if let Some(operand) = operand {
        assert_eq!(operand.mask, mask_of(&nodes));
    }
    Reading {
        cursor: answer.cursor(),
        operand: operand.map(|operand| operand_values(layout, operand.record)),
        nodes,
        diagnostics: diagnostics
            .map(|record| diagnostic_values(layout, record))
            .collect(),
    }
}

fn reading(mut input: Input) -> Result<Reading, Refusal> {
    let answer = input.read()?;
    Ok(values_of(&input, answer))
}

/// Whether the line is a narrow frame; if so, its reading must be that of the wide one.
fn both_read_alike(line: &[u8], limit: usize) -> bool {
    let input = Input::of_line(line).filter(|input| input.layout == Layout::Narrow);
    let Some(narrow) = input.map(|input| input.at_limit(limit)) else {
        return false;
    };
    let wide = reading(narrow.widened());
    assert_eq!(reading(narrow), wide, "limit {limit}: {}", shown(line));
    true
}

#[test]
fn recorded_frames_are_read_alike() {
    let lines = recorded_lines();
    let read = lines
        .iter()
        .filter(|line| both_read_alike(line, LIMIT_PROGRAM));
    assert!(read.count() > 10_000);
}

#[test]
fn generated_frames_are_read_alike_at_every_limit() {
    for limit in 1..=LIMIT_MOST {
        for number in 0..500 {
            let line = input_line_at(limit as u64 + 1000, number, limit);
            both_read_alike(&line, limit);
        }
    }
}
