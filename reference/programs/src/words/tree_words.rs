//! Nodes in words, and a tree as an expression.

use super::span_words;
use crate::names;
use crate::printable::printable;
use crate::records::{Content, NodeRecord};

/// How long an expression may grow. A line of 255 bytes stays far below it; a long one, and what a
/// faulty program writes, need not.
const LONGEST: usize = 2000;

/// A node's record in words.
pub fn node_words(node: &NodeRecord, line: Option<&[u8]>) -> String {
    let detail = node.detail;
    let (left, right) = (child_words(node.left), child_words(node.right));
    let content = content_words(&node.content, line);
    let what = match node.kind {
        1 => {
            let base = names::from_zero(&names::BASES, detail);
            format!("number{content}, {base}")
        }
        2 => {
            let quote = names::from_zero(&names::QUOTES, detail);
            format!("literal, {quote} quote,{content}")
        }
        3 => format!("symbol{content}"),
        4 => format!("current address{content}"),
        5 => {
            let operator = names::from_zero(&names::UNARY, detail);
            format!("unary {operator} of node {left}{content}")
        }
        6 => {
            let operator = names::from_zero(&names::BINARY, detail);
            format!("binary {operator} of nodes {left} and {right}{content}")
        }
        7 => format!("single {}{content}", names::register_in_number(node.left)),
        8 => {
            let [from, to] = [node.left, node.right].map(names::register_in_number);
            format!("range {from} to {to}{content}")
        }
        other => format!("kind {other} (not defined){content}"),
    };
    format!("{what}; span {}", span_words(node.span, line))
}

/// A child's number.
fn child_words(child: Option<usize>) -> String {
    child.map_or("none".to_string(), |number| number.to_string())
}

/// What a node's last eight bytes say, with a blank before it.
fn content_words(content: &Content, line: Option<&[u8]>) -> String {
    match content {
        Content::Nothing => String::new(),
        Content::Value(value) => format!(" {value}"),
        Content::Own(span) => format!(" {}", span_words(*span, line)),
        Content::Ends(first, last) => {
            let [first, last] = [first, last].map(|span| span_words(*span, line));
            format!(" at {first} and {last}")
        }
        Content::Other(bytes) => format!(" with the bytes {bytes:02x?} (not defined)"),
    }
}

/// The tree below node `root` as an expression, with parentheses around every inner binary.
pub fn tree_words(nodes: &[NodeRecord], root: usize, line: Option<&[u8]>) -> String {
    let mut out = String::new();
    push_tree(&mut out, nodes, root, line, false);
    if out.len() > LONGEST {
        out.push_str("...");
    }
    out
}

/// Appends a tree. A child that does not come before its parent is not followed, so that no
/// bytes make this go on forever.
fn push_tree(out: &mut String, nodes: &[NodeRecord], at: usize, line: Option<&[u8]>, inner: bool) {
    if out.len() > LONGEST {
        return;
    }
    let Some(node) = nodes.get(at) else {
        return out.push_str(&format!("<no node {at}>"));
    };
    let push_child = |out: &mut String, child: Option<usize>| match child {
        Some(child) if child < at => push_tree(out, nodes, child, line, true),
        child => out.push_str(&format!("<node {} of node {at}>", child_words(child))),
    };
    match node.kind {
        5 => {
            out.push_str(&names::from_zero(&names::UNARY, node.detail));
            push_child(out, node.left);
        }
        6 => {
            out.push_str(if inner { "(" } else { "" });
            push_child(out, node.left);
            out.push_str(&names::from_zero(&names::BINARY, node.detail));
            push_child(out, node.right);
            out.push_str(if inner { ")" } else { "" });
        }
        _ => out.push_str(&leaf_words(node, line)),
    }
}

/// A leaf: its value, or its text where the line is known.
fn leaf_words(node: &NodeRecord, line: Option<&[u8]>) -> String {
    match (node.kind, node.content) {
        (1, Content::Value(value)) => value.to_string(),
        (2 | 3, Content::Own([start, end])) => {
            let text = line.and_then(|line| line.get(start..end));
            let name = names::NODES[node.kind as usize - 1];
            text.map_or(format!("<{name} {start}..{end}>"), printable)
        }
        (4, _) => "*".to_string(),
        _ => "<no expression>".to_string(),
    }
}

#[cfg(test)]
mod tests {
    use super::*;

    fn node(kind: u8, detail: u8, children: [Option<usize>; 2], content: Content) -> NodeRecord {
        NodeRecord {
            kind,
            detail,
            left: children[0],
            right: children[1],
            span: [0, 1],
            content,
        }
    }

    fn binary(operator: u8, left: usize, right: usize) -> NodeRecord {
        node(6, operator, [Some(left), Some(right)], Content::Nothing)
    }

    /// `(1+2)/3`, finished first to last.
    fn quotient() -> Vec<NodeRecord> {
        let number = |value| node(1, 0, [None; 2], Content::Value(value));
        vec![
            number(1),
            number(2),
            binary(0, 0, 1),
            number(3),
            binary(3, 2, 3),
        ]
    }

    #[test]
    fn a_tree_as_an_expression() {
        assert_eq!(tree_words(&quotient(), 4, None), "(1+2)/3");
        assert_eq!(
            node_words(&quotient()[2], None),
            "binary + of nodes 0 and 1; span 0..1"
        );
        let list = node(7, 0, [Some(9), Some(9)], Content::Ends([0, 2], [0, 2]));
        assert_eq!(
            node_words(&list, Some(b"a1")),
            "single a1 at 0..2 `a1` and 0..2 `a1`; span 0..1 `a`"
        );
    }

    /// Any bytes give some words: no endless loop, no endless text.
    #[test]
    fn broken_trees_end() {
        let mut nodes = quotient();
        nodes[4].left = Some(4);
        assert_eq!(tree_words(&nodes, 4, None), "<node 4 of node 4>/3");
        nodes[4].left = None;
        assert_eq!(tree_words(&nodes, 4, None), "<node none of node 4>/3");
        assert_eq!(tree_words(&nodes, 9, None), "<no node 9>");
        let doubled = |at: usize| binary(0, at.wrapping_sub(1), at.wrapping_sub(1));
        let many: Vec<NodeRecord> = (0..255).map(doubled).collect();
        assert!(tree_words(&many, 254, None).len() < 2 * LONGEST);
    }
}
