//! An answer line: what the program says of one frame.
//!
//! `00` or `01`, the cursor, the nodes used, the diagnostics (2 bytes, low first), the operand
//! if the line began with `00`, the nodes, the diagnostics; or `02` and the refusal. It is written
//! in the layout of its frame, and opens with a `w` where that is the wide one.

use crate::hex::{self, HexFault};
use crate::layout::{Layout, Parts};
use crate::records::{DiagnosticRecord, NodeRecord, OperandRecord, Records};
use std::fmt;

/// The bytes of the diagnostics' count, in both layouts.
const COUNT_BYTES: usize = 2;

/// An answer.
#[derive(Debug, Clone, PartialEq, Eq)]
pub enum Answer {
    /// A reading took place.
    Reading {
        /// The place of the first token that was not consumed.
        cursor: usize,
        /// What was read.
        records: Records,
    },
    /// The frame was refused, for the reason of this number.
    Refused(u8),
}

/// Why a line is no answer.
#[derive(Debug, Clone, PartialEq, Eq)]
pub enum AnswerFault {
    /// It is no sequence of bytes.
    Digits(HexFault),
    /// It does not begin with 00, 01 or 02.
    FirstByte(Option<u8>),
    /// It ends within its first bytes.
    Short(Layout, usize),
    /// Its counts give another length.
    Length { bytes: usize, wanted: usize },
    /// It is longer than any answer of its layout.
    TooLong(Layout),
}

impl fmt::Display for AnswerFault {
    fn fmt(&self, out: &mut fmt::Formatter) -> fmt::Result {
        match self {
            AnswerFault::Digits(fault) => fault.fmt(out),
            AnswerFault::FirstByte(None) => {
                write!(out, "empty, but an answer begins with 00, 01 or 02")
            }
            AnswerFault::FirstByte(Some(byte)) => {
                write!(
                    out,
                    "column 1: it begins with {byte:02x}, but an answer begins with 00, 01 or 02"
                )
            }
            AnswerFault::Short(layout, bytes) => write!(
                out,
                "{bytes} bytes, which end before the cursor and the counts (bytes 2 to {})",
                layout.head_bytes()
            ),
            AnswerFault::Length { bytes, wanted } => {
                write!(out, "{bytes} bytes, but its counts give {wanted}")
            }
            AnswerFault::TooLong(layout) => {
                write!(out, "more than {} characters", layout.longest_answer())
            }
        }
    }
}

/// Appends the answer line of a reading to `out`, without a line feed.
pub fn push_reading(out: &mut Vec<u8>, layout: Layout, cursor: usize, records: &Records) {
    let mut bytes = vec![u8::from(records.operand.is_none())];
    layout.push_pair(&mut bytes, [cursor, records.nodes.len()]);
    let diagnostics = u16::try_from(records.diagnostics.len()).expect("at most 2,047 diagnostics");
    bytes.extend(diagnostics.to_le_bytes());
    if let Some(operand) = &records.operand {
        operand.push(layout, &mut bytes);
    }
    for node in &records.nodes {
        node.push(layout, &mut bytes);
    }
    for record in &records.diagnostics {
        record.push(layout, &mut bytes);
    }
    out.extend(layout.opening());
    hex::push(out, &bytes);
}

/// Appends the answer line of a refusal to `out`, without a line feed.
pub fn push_refusal(out: &mut Vec<u8>, layout: Layout, number: u8) {
    out.extend(layout.opening());
    hex::push(out, &[2, number]);
}

impl Answer {
    /// The answer that a line spells, and its layout.
    pub fn of_line(text: &[u8]) -> Result<(Layout, Self), AnswerFault> {
        let (layout, digits) = Layout::of_line(text);
        if text.len() > layout.longest_answer() {
            return Err(AnswerFault::TooLong(layout));
        }
        let bytes = hex::decode(digits).map_err(AnswerFault::Digits)?;
        let answer = match bytes.first() {
            Some(0 | 1) => Self::of_reading(layout, &bytes),
            Some(2) if bytes.len() == 2 => Ok(Answer::Refused(bytes[1])),
            Some(2) => Err(wrong_length(&bytes, 2)),
            other => Err(AnswerFault::FirstByte(other.copied())),
        };
        Ok((layout, answer?))
    }

    /// The answer of a reading, from its bytes.
    fn of_reading(layout: Layout, bytes: &[u8]) -> Result<Self, AnswerFault> {
        if bytes.len() < layout.head_bytes() {
            return Err(AnswerFault::Short(layout, bytes.len()));
        }
        let mut parts = Parts::new(layout, bytes);
        let operands = usize::from(parts.byte() == 0);
        let [cursor, nodes] = parts.pair();
        let diagnostics = parts.bytes(COUNT_BYTES).expect("a count");
        let diagnostics = u16::from_le_bytes([diagnostics[0], diagnostics[1]]) as usize;
        let lengths = [
            operands * layout.operand_bytes(),
            nodes * layout.node_bytes(),
            diagnostics * layout.diagnostic_bytes(),
        ];
        let wanted = layout.head_bytes() + lengths.iter().sum::<usize>();
        if bytes.len() != wanted {
            return Err(wrong_length(bytes, wanted));
        }
        let [operand, nodes, diagnostics] =
            lengths.map(|length| parts.bytes(length).expect("the counts give the length"));
        let records = Records {
            operand: (operands == 1).then(|| OperandRecord::of(layout, operand)),
            nodes: each(nodes, layout.node_bytes(), |bytes| {
                NodeRecord::of(layout, bytes)
            }),
            diagnostics: each(diagnostics, layout.diagnostic_bytes(), |bytes| {
                DiagnosticRecord::of(layout, bytes)
            }),
        };
        Ok(Answer::Reading { cursor, records })
    }

    /// The answer as a line of a layout, without a line feed.
    pub fn to_line(&self, layout: Layout) -> Vec<u8> {
        let mut out = Vec::new();
        match self {
            Answer::Reading { cursor, records } => push_reading(&mut out, layout, *cursor, records),
            Answer::Refused(number) => push_refusal(&mut out, layout, *number),
        }
        out
    }
}

/// The records of so many bytes each.
fn each<T>(bytes: &[u8], size: usize, record: impl Fn(&[u8]) -> T) -> Vec<T> {
    bytes.chunks_exact(size).map(record).collect()
}

fn wrong_length(bytes: &[u8], wanted: usize) -> AnswerFault {
    let bytes = bytes.len();
    AnswerFault::Length { bytes, wanted }
}

#[cfg(test)]
mod tests {
    use super::*;

    /// An operand, two nodes and many diagnostics of the same byte each.
    fn records(layout: Layout) -> Records {
        let node = NodeRecord::of(layout, &[2; 18][..layout.node_bytes()]);
        let one = DiagnosticRecord::of(layout, &[4; 16][..layout.diagnostic_bytes()]);
        Records {
            operand: Some(OperandRecord::of(
                layout,
                &[1; 30][..layout.operand_bytes()],
            )),
            nodes: vec![node; 2],
            diagnostics: vec![one; 300],
        }
    }

    #[test]
    fn an_answer_there_and_back() {
        for layout in Layout::BOTH {
            let records = records(layout);
            let answer = Answer::Reading { cursor: 7, records };
            let line = answer.to_line(layout);
            assert_eq!(Answer::of_line(&line), Ok((layout, answer)));
        }
        let refused = Answer::Refused(8);
        assert_eq!(refused.to_line(Layout::Narrow), b"0208");
        assert_eq!(refused.to_line(Layout::Wide), b"w0208");
        assert_eq!(
            Answer::of_line(b"0208"),
            Ok((Layout::Narrow, refused.clone()))
        );
        assert_eq!(Answer::of_line(b"w0208"), Ok((Layout::Wide, refused)));
    }

    #[test]
    fn what_is_no_answer() {
        let fault = |text: &[u8]| Answer::of_line(text).unwrap_err();
        let length = |bytes, wanted| AnswerFault::Length { bytes, wanted };
        assert_eq!(fault(b""), AnswerFault::FirstByte(None));
        assert_eq!(fault(b"w"), AnswerFault::FirstByte(None));
        assert_eq!(fault(b"03"), AnswerFault::FirstByte(Some(3)));
        assert_eq!(fault(b"01"), AnswerFault::Short(Layout::Narrow, 1));
        assert_eq!(fault(b"w0100000000"), AnswerFault::Short(Layout::Wide, 5));
        assert_eq!(fault(b"020800"), length(3, 2));
        assert_eq!(fault(b"0100000000ff"), length(6, 5));
        assert_eq!(fault(b"w01000000000000ff"), length(8, 7));
        let long = [b'0'; 110_000];
        assert_eq!(fault(&long), AnswerFault::TooLong(Layout::Narrow));
        let long = [b"w", &long[..]].concat();
        assert_eq!(fault(&long), AnswerFault::TooLong(Layout::Wide));
    }
}
