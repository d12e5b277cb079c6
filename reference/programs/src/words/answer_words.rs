//! An answer for a reader, field by field.

use super::tree_words::{node_words, tree_words};
use super::{span_words, Field};
use crate::answer::Answer;
use crate::layout::{Layout, Pair};
use crate::names;
use crate::printable::printable;
use crate::records::{
    DiagnosticRecord, NodeRecord, OperandRecord, Records, ABSENT, NOT_AN_ADDRESS_REGISTER, PROBLEMS,
};

/// The fields of an answer, in the order of the answer line, with their bytes in its layout.
/// `line` is the frame's line, where it is known; texts are quoted from it.
pub fn answer_fields(layout: Layout, answer: &Answer, line: Option<&[u8]>) -> Vec<Field> {
    let mut fields = Fields {
        list: Vec::new(),
        layout,
        line,
    };
    fields.add_layout();
    match answer {
        Answer::Refused(number) => {
            let words = format!("refused, {}", names::refusal(*number));
            fields.add("answer", vec![2, *number], words);
        }
        Answer::Reading { cursor, records } => fields.add_reading(*cursor, records),
    }
    fields.list
}

/// The fields while they are gathered.
struct Fields<'a> {
    list: Vec<Field>,
    layout: Layout,
    line: Option<&'a [u8]>,
}

impl Fields<'_> {
    fn add(&mut self, name: &str, bytes: Vec<u8>, words: String) {
        self.list.push(Field {
            name: name.to_string(),
            bytes,
            words,
            absent: false,
        });
    }

    /// The layout, which has no byte of its own. The narrow one is not worth a word.
    fn add_layout(&mut self) {
        self.add("layout", Vec::new(), self.layout.to_string());
        self.list[0].absent = self.layout == Layout::Narrow;
    }

    /// What `push` appends in the answer's layout.
    fn bytes(&self, push: impl Fn(Layout, &mut Vec<u8>)) -> Vec<u8> {
        let mut bytes = Vec::new();
        push(self.layout, &mut bytes);
        bytes
    }

    fn add_number(&mut self, name: &str, number: usize) {
        let bytes = self.bytes(|layout, out| layout.push_number(out, number));
        self.add(name, bytes, number.to_string());
    }

    /// A field that says that something is absent.
    fn add_absent(&mut self, name: &str, bytes: Vec<u8>) {
        self.add(name, bytes, "none".to_string());
        let last = self.list.last_mut().expect("the field just added");
        last.absent = true;
    }

    /// A byte that says nothing where it is `nothing`.
    fn add_byte(&mut self, nothing: u8, name: &str, byte: u8, words: String) {
        match byte == nothing {
            true => self.add_absent(name, vec![byte]),
            false => self.add(name, vec![byte], words),
        }
    }

    fn add_reading(&mut self, cursor: usize, records: &Records) {
        let (first, words) = match records.operand {
            Some(_) => (0, "operand"),
            None => (1, "no operand"),
        };
        self.add("answer", vec![first], words.to_string());
        self.add_number("cursor", cursor);
        self.add_number("nodes used", records.nodes.len());
        let count = records.diagnostics.len();
        let bytes = (count as u16).to_le_bytes().to_vec();
        self.add("diagnostics", bytes, count.to_string());
        if let Some(operand) = &records.operand {
            self.add_operand(operand, &records.nodes);
        }
        for (number, node) in records.nodes.iter().enumerate() {
            let words = node_words(node, self.line);
            let bytes = self.bytes(|layout, out| node.push(layout, out));
            self.add(&format!("node {number}"), bytes, words);
        }
        for (number, record) in records.diagnostics.iter().enumerate() {
            let words = diagnostic_words(record, self.line);
            let bytes = self.bytes(|layout, out| record.push(layout, out));
            self.add(&format!("diagnostic {number}"), bytes, words);
        }
    }

    fn add_operand(&mut self, operand: &OperandRecord, nodes: &[NodeRecord]) {
        let form = operand.form;
        self.add("form", vec![form], names::from_one(&names::FORMS, form));
        self.add_span("span", operand.span);
        self.add_node("node", operand.node, form, nodes);
        self.add_size("size", operand.size);
        let base = operand.base;
        self.add_byte(ABSENT, "base", base, names::register(base));
        self.add_span("base span", operand.base_span);
        self.add_index(operand);
        let indirection = operand.indirection;
        let words = names::from_zero(&names::INDIRECTIONS, indirection);
        self.add_byte(0, "indirection", indirection, words);
        self.add_node("outer node", operand.outer_node, form, nodes);
        self.add_size("outer size", operand.outer_size);
        let last = operand.special_or_long;
        let (name, words) = match form {
            1 => ("long", "written with .l".to_string()),
            _ => ("special register", names::from_one(&names::SPECIAL, last)),
        };
        self.add_byte(0, name, last, words);
    }

    fn add_index(&mut self, operand: &OperandRecord) {
        let index = operand.index;
        self.add_byte(ABSENT, "index register", index, names::register(index));
        self.add_span("index register span", operand.index_register_span);
        self.add_size("index size", operand.index_size);
        let scale = operand.index_scale;
        self.add_byte(0, "index scale", scale, scale.to_string());
        let suppressed = operand.index_suppressed;
        let words = match suppressed {
            1 => "suppressed".to_string(),
            other => format!("{other} (not defined)"),
        };
        self.add_byte(0, "index suppressed", suppressed, words);
        self.add_span("index span", operand.index_span);
    }

    /// A span, which is 0 where what it belongs to is absent.
    fn add_span(&mut self, name: &str, span: Pair) {
        let bytes = self.bytes(|layout, out| layout.push_pair(out, span));
        match span == [0, 0] {
            true => self.add_absent(name, bytes),
            false => self.add(name, bytes, span_words(span, self.line)),
        }
    }

    fn add_size(&mut self, name: &str, size: u8) {
        self.add_byte(0, name, size, names::from_one(&names::SIZES, size));
    }

    /// A node's number, with its tree. A register list names its first item.
    fn add_node(&mut self, name: &str, node: Option<usize>, form: u8, nodes: &[NodeRecord]) {
        let bytes = self.bytes(|layout, out| layout.push_node(out, node));
        let Some(node) = node else {
            return self.add_absent(name, bytes);
        };
        let words = match form {
            14 => format!("{node}, the first item"),
            _ => format!("{node}, the tree {}", tree_words(nodes, node, self.line)),
        };
        self.add(name, bytes, words);
    }
}

/// A diagnostic's record in words.
fn diagnostic_words(record: &DiagnosticRecord, line: Option<&[u8]>) -> String {
    let mut words = names::from_one(&names::DIAGNOSTICS, record.kind);
    words += &format!(" at {}", span_words(record.span, line));
    let quoted = span_words(record.text, line);
    match record.kind {
        7 => {
            words += &format!("; shape {}", names::from_one(&names::SHAPES, record.shape));
            words += &format!("; problem {}", problem_words(record.problem));
            if record.problem == NOT_AN_ADDRESS_REGISTER {
                words += &format!(" of {quoted}");
            }
        }
        9 => words += &format!("; after `{}`", printable(&[record.problem])),
        10 => {
            let registers = record.text.map(|one| names::register_in_number(Some(one)));
            words += &format!("; from {} to {}", registers[0], registers[1]);
        }
        13 if record.text == [0, 0] => words += "; no term",
        1..=3 | 8 | 11..=13 => words += &format!("; text {quoted}"),
        _ => {}
    }
    if record.has_related != 0 {
        words += &format!("; related {}", span_words(record.related, line));
    }
    words
}

/// A problem's number and the beginning of its text.
fn problem_words(problem: u8) -> String {
    let words = names::from_one(&PROBLEMS, problem);
    match words.split_once(':') {
        Some((beginning, _)) => beginning.to_string(),
        None => words,
    }
}
