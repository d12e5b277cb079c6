//! An answer's values, from each layout's bytes.
//!
//! A second text of the layouts: the places below are those of the table in docs/FORMAT.md, and
//! nothing is shared with the functions that write records.

use crate::hex;

/// What an answer says.
#[derive(Debug, PartialEq, Eq)]
pub enum Values {
    Refused(u8),
    Reading(Reading),
}

#[derive(Debug, PartialEq, Eq)]
pub struct Reading {
    cursor: u16,
    operand: Option<Operand>,
    nodes: Vec<Node>,
    diagnostics: Vec<Diagnostic>,
}

#[derive(Debug, PartialEq, Eq)]
struct Operand {
    /// Form, size, base, index register, its size, scale, suppressed, indirection, outer size,
    /// special register or long.
    bytes: [u8; 10],
    /// Of the operand, the base, the index register, the whole index.
    spans: [[u16; 2]; 4],
    /// The displacement's and the outer displacement's.
    nodes: [Option<u16>; 2],
}

#[derive(Debug, PartialEq, Eq)]
struct Node {
    kind: u8,
    detail: u8,
    /// Children, or a list item's registers.
    children: [Option<u16>; 2],
    span: [u16; 2],
    /// A value, an own span, or the spans of two registers.
    content: [u16; 4],
}

#[derive(Debug, PartialEq, Eq)]
struct Diagnostic {
    /// Kind, shape, problem, and whether there is a related place.
    bytes: [u8; 4],
    /// Of itself, its text (or two registers), and the related place.
    spans: [[u16; 2]; 3],
}

/// Two bytes, the low one first.
fn two(bytes: &[u8], at: usize) -> u16 {
    bytes[at] as u16 + 256 * bytes[at + 1] as u16
}

fn narrow_node_number(byte: u8) -> Option<u16> {
    (byte != 0xff).then_some(byte as u16)
}

fn wide_node_number(number: u16) -> Option<u16> {
    (number != 0xffff).then_some(number)
}

/// Bytes that a record does not need.
fn zeros(bytes: &[u8]) -> Result<(), String> {
    match bytes.iter().all(|byte| *byte == 0) {
        true => Ok(()),
        false => Err(format!("{bytes:02x?} where zeros are wanted")),
    }
}

/// The bytes of an answer's digits.
fn decoded(digits: &[u8]) -> Result<Vec<u8>, String> {
    hex::decode(digits).map_err(|fault| fault.to_string())
}

/// The values of a narrow answer line.
pub fn narrow_values(line: &[u8]) -> Result<Values, String> {
    let bytes = decoded(line)?;
    match bytes[..] {
        [2, number] => return Ok(Values::Refused(number)),
        [0 | 1, _, _, _, _, ..] => {}
        _ => return Err("it begins wrongly".to_string()),
    }
    let (operands, nodes) = (1 - bytes[0] as usize, bytes[2] as usize);
    let diagnostics = two(&bytes, 3) as usize;
    let [operand, nodes, diagnostics] =
        three(&bytes[5..], [20 * operands, 14 * nodes, 10 * diagnostics])?;
    Ok(Values::Reading(Reading {
        cursor: bytes[1] as u16,
        operand: (operands == 1).then(|| narrow_operand(operand)),
        nodes: nodes
            .chunks(14)
            .map(narrow_node)
            .collect::<Result<_, _>>()?,
        diagnostics: diagnostics.chunks(10).map(narrow_diagnostic).collect(),
    }))
}

/// The values of a wide answer line.
pub fn wide_values(line: &[u8]) -> Result<Values, String> {
    let digits = line.strip_prefix(b"w").ok_or("it has no w")?;
    let bytes = decoded(digits)?;
    match bytes[..] {
        [2, number] => return Ok(Values::Refused(number)),
        [0 | 1, _, _, _, _, _, _, ..] => {}
        _ => return Err("it begins wrongly".to_string()),
    }
    let (operands, nodes) = (1 - bytes[0] as usize, two(&bytes, 3) as usize);
    let diagnostics = two(&bytes, 5) as usize;
    let [operand, nodes, diagnostics] =
        three(&bytes[7..], [30 * operands, 18 * nodes, 16 * diagnostics])?;
    Ok(Values::Reading(Reading {
        cursor: two(&bytes, 1),
        operand: (operands == 1).then(|| wide_operand(operand)),
        nodes: nodes.chunks(18).map(wide_node).collect::<Result<_, _>>()?,
        diagnostics: diagnostics.chunks(16).map(wide_diagnostic).collect(),
    }))
}

/// The bytes of the operand, of the nodes and of the diagnostics.
fn three(bytes: &[u8], lengths: [usize; 3]) -> Result<[&[u8]; 3], String> {
    let wanted: usize = lengths.iter().sum();
    if bytes.len() != wanted {
        return Err(format!("{} bytes of records, not {wanted}", bytes.len()));
    }
    let (operand, rest) = bytes.split_at(lengths[0]);
    let (nodes, diagnostics) = rest.split_at(lengths[1]);
    Ok([operand, nodes, diagnostics])
}

fn narrow_operand(b: &[u8]) -> Operand {
    let spans = [[b[1], b[2]], [b[6], b[7]], [b[9], b[10]], [b[14], b[15]]];
    Operand {
        bytes: [
            b[0], b[4], b[5], b[8], b[11], b[12], b[13], b[16], b[18], b[19],
        ],
        spans: spans.map(|span| span.map(u16::from)),
        nodes: [b[3], b[17]].map(narrow_node_number),
    }
}

fn wide_operand(b: &[u8]) -> Operand {
    Operand {
        bytes: [
            b[0], b[7], b[8], b[13], b[18], b[19], b[20], b[25], b[28], b[29],
        ],
        spans: [
            [two(b, 1), two(b, 3)],
            [two(b, 9), two(b, 11)],
            [two(b, 14), two(b, 16)],
            [two(b, 21), two(b, 23)],
        ],
        nodes: [two(b, 5), two(b, 26)].map(wide_node_number),
    }
}

fn narrow_node(b: &[u8]) -> Result<Node, String> {
    let content = match b[0] {
        1 => [two(b, 6), two(b, 8), two(b, 10), two(b, 12)],
        2 | 3 => {
            zeros(&b[8..14])?;
            [b[6].into(), b[7].into(), 0, 0]
        }
        7 | 8 => {
            zeros(&b[10..14])?;
            [b[6], b[7], b[8], b[9]].map(u16::from)
        }
        _ => {
            zeros(&b[6..14])?;
            [0; 4]
        }
    };
    Ok(Node {
        kind: b[0],
        detail: b[1],
        children: [b[2], b[3]].map(narrow_node_number),
        span: [b[4], b[5]].map(u16::from),
        content,
    })
}

fn wide_node(b: &[u8]) -> Result<Node, String> {
    let content = [two(b, 10), two(b, 12), two(b, 14), two(b, 16)];
    match b[0] {
        1 | 7 | 8 => {}
        2 | 3 => zeros(&b[14..18])?,
        _ => zeros(&b[10..18])?,
    }
    Ok(Node {
        kind: b[0],
        detail: b[1],
        children: [two(b, 2), two(b, 4)].map(wide_node_number),
        span: [two(b, 6), two(b, 8)],
        content,
    })
}

fn narrow_diagnostic(b: &[u8]) -> Diagnostic {
    let spans = [[b[3], b[4]], [b[5], b[6]], [b[7], b[8]]];
    Diagnostic {
        bytes: [b[0], b[1], b[2], b[9]],
        spans: spans.map(|span| span.map(u16::from)),
    }
}

fn wide_diagnostic(b: &[u8]) -> Diagnostic {
    Diagnostic {
        bytes: [b[0], b[1], b[2], b[15]],
        spans: [
            [two(b, 3), two(b, 5)],
            [two(b, 7), two(b, 9)],
            [two(b, 11), two(b, 13)],
        ],
    }
}

/// The first part in which two answers differ, in words.
pub fn first_difference(narrow: &Values, wide: &Values) -> Option<String> {
    if narrow == wide {
        return None;
    }
    let (Values::Reading(a), Values::Reading(b)) = (narrow, wide) else {
        return Some(format!("narrow {narrow:?}, wide {wide:?}"));
    };
    let parts = [
        part("cursor", &a.cursor, &b.cursor),
        part("operand", &a.operand, &b.operand),
        record("node", &a.nodes, &b.nodes),
        record("diagnostic", &a.diagnostics, &b.diagnostics),
    ];
    parts.into_iter().flatten().next()
}

fn part<T: PartialEq + std::fmt::Debug>(name: &str, narrow: &T, wide: &T) -> Option<String> {
    (narrow != wide).then(|| format!("{name}: narrow {narrow:?}, wide {wide:?}"))
}

/// The first record that differs, or is there in one answer only.
fn record<T: PartialEq + std::fmt::Debug>(name: &str, narrow: &[T], wide: &[T]) -> Option<String> {
    let most = narrow.len().max(wide.len());
    let records = (0..most).map(|number| {
        let name = format!("{name} {number}");
        part(&name, &narrow.get(number), &wide.get(number))
    });
    records.flatten().next()
}
