//! The records' bytes in a layout, written and read.

use super::{Content, DiagnosticRecord, NodeRecord, OperandRecord};
use crate::layout::{Layout, Parts};

/// The bytes of a node's content, in both layouts.
const CONTENT: usize = 8;

impl OperandRecord {
    /// Appends the record's bytes.
    pub fn push(&self, layout: Layout, out: &mut Vec<u8>) {
        out.push(self.form);
        layout.push_pair(out, self.span);
        layout.push_node(out, self.node);
        out.extend([self.size, self.base]);
        layout.push_pair(out, self.base_span);
        out.push(self.index);
        layout.push_pair(out, self.index_register_span);
        out.extend([self.index_size, self.index_scale, self.index_suppressed]);
        layout.push_pair(out, self.index_span);
        out.push(self.indirection);
        layout.push_node(out, self.outer_node);
        out.extend([self.outer_size, self.special_or_long]);
    }

    /// The record that the bytes write.
    pub fn of(layout: Layout, bytes: &[u8]) -> Self {
        let mut parts = Parts::new(layout, bytes);
        OperandRecord {
            form: parts.byte(),
            span: parts.pair(),
            node: parts.node(),
            size: parts.byte(),
            base: parts.byte(),
            base_span: parts.pair(),
            index: parts.byte(),
            index_register_span: parts.pair(),
            index_size: parts.byte(),
            index_scale: parts.byte(),
            index_suppressed: parts.byte(),
            index_span: parts.pair(),
            indirection: parts.byte(),
            outer_node: parts.node(),
            outer_size: parts.byte(),
            special_or_long: parts.byte(),
        }
    }
}

impl NodeRecord {
    /// Appends the record's bytes.
    pub fn push(&self, layout: Layout, out: &mut Vec<u8>) {
        out.extend([self.kind, self.detail]);
        layout.push_node(out, self.left);
        layout.push_node(out, self.right);
        layout.push_pair(out, self.span);
        let end = out.len() + CONTENT;
        self.content.push(layout, out);
        out.resize(end, 0);
    }

    /// The record that the bytes write.
    pub fn of(layout: Layout, bytes: &[u8]) -> Self {
        let mut parts = Parts::new(layout, bytes);
        let kind = parts.byte();
        NodeRecord {
            kind,
            detail: parts.byte(),
            left: parts.node(),
            right: parts.node(),
            span: parts.pair(),
            content: Content::of(layout, kind, parts.rest()),
        }
    }
}

impl Content {
    /// Appends the bytes up to the last that need not be 0.
    fn push(&self, layout: Layout, out: &mut Vec<u8>) {
        match self {
            Content::Nothing => {}
            Content::Value(value) => out.extend(value.to_le_bytes()),
            Content::Own(span) => layout.push_pair(out, *span),
            Content::Ends(first, last) => {
                layout.push_pair(out, *first);
                layout.push_pair(out, *last);
            }
            Content::Other(bytes) => out.extend(bytes),
        }
    }

    /// What the eight bytes say in a node of a kind.
    fn of(layout: Layout, kind: u8, bytes: &[u8]) -> Self {
        let eight: [u8; CONTENT] = bytes.try_into().expect("eight bytes");
        let mut parts = Parts::new(layout, bytes);
        let content = match kind {
            1 => return Content::Value(i64::from_le_bytes(eight)),
            2 | 3 => Content::Own(parts.pair()),
            7 | 8 => Content::Ends(parts.pair(), parts.pair()),
            _ => Content::Nothing,
        };
        match parts.rest().iter().all(|byte| *byte == 0) {
            true => content,
            false => Content::Other(eight),
        }
    }
}

impl DiagnosticRecord {
    /// Appends the record's bytes.
    pub fn push(&self, layout: Layout, out: &mut Vec<u8>) {
        out.extend([self.kind, self.shape, self.problem]);
        layout.push_pair(out, self.span);
        layout.push_pair(out, self.text);
        layout.push_pair(out, self.related);
        out.push(self.has_related);
    }

    /// The record that the bytes write.
    pub fn of(layout: Layout, bytes: &[u8]) -> Self {
        let mut parts = Parts::new(layout, bytes);
        DiagnosticRecord {
            kind: parts.byte(),
            shape: parts.byte(),
            problem: parts.byte(),
            span: parts.pair(),
            text: parts.pair(),
            related: parts.pair(),
            has_related: parts.byte(),
        }
    }
}

#[cfg(test)]
mod tests {
    use super::*;
    use crate::random::Random;

    /// Any bytes are some record, and the record has these bytes.
    fn there_and_back(length: fn(Layout) -> usize, again: fn(Layout, &[u8]) -> Vec<u8>) {
        for layout in Layout::BOTH {
            for number in 0..2000 {
                let mut random = Random::new(1, number);
                let mut byte = || random.pick(&[0, 0, 0, 1, 3, 7, 255, 200]);
                let bytes: Vec<u8> = (0..length(layout)).map(|_| byte()).collect();
                assert_eq!(again(layout, &bytes), bytes);
            }
        }
    }

    #[test]
    fn operands_there_and_back() {
        there_and_back(Layout::operand_bytes, |layout, bytes| {
            let mut out = Vec::new();
            OperandRecord::of(layout, bytes).push(layout, &mut out);
            out
        });
    }

    #[test]
    fn nodes_there_and_back() {
        there_and_back(Layout::node_bytes, |layout, bytes| {
            let mut out = Vec::new();
            NodeRecord::of(layout, bytes).push(layout, &mut out);
            out
        });
    }

    #[test]
    fn diagnostics_there_and_back() {
        there_and_back(Layout::diagnostic_bytes, |layout, bytes| {
            let mut out = Vec::new();
            DiagnosticRecord::of(layout, bytes).push(layout, &mut out);
            out
        });
    }
}
