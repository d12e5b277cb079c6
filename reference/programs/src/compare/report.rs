//! The first difference between two programs' answers, for a reader.

use super::{Batch, Outcome};
use crate::answer::Answer;
use crate::frame::frame_text;
use crate::hex;
use crate::layout::Layout;
use crate::printable::printable;
use crate::words::{answer_fields, field_lines, input_words, Field};
use std::fmt::Write;

/// What two runs on one batch differ in; `None` if they agree and ended well.
pub fn difference(batch: &Batch, a: &Outcome, b: &Outcome) -> Option<String> {
    let mut out = String::new();
    for (name, outcome) in [("A", a), ("B", b)] {
        if let Some(fault) = &outcome.fault {
            let _ = writeln!(out, "{name} failed on {}: {fault}", lines_words(batch));
        }
    }
    let places = 0..batch.lines.len();
    let first = places
        .clone()
        .find(|place| a.answers.get(*place) != b.answers.get(*place));
    // Where both stop at the same line, that line is the one to look at.
    let missing = places.clone().find(|place| a.answers.get(*place).is_none());
    if let Some(place) = first.or(missing) {
        let number = batch.first + place as u64;
        let (a, b) = (a.answers.get(place), b.answers.get(place));
        out += &frame_report(number, &batch.lines[place], a, b);
    }
    (!out.is_empty()).then_some(out)
}

/// Which lines a batch has.
fn lines_words(batch: &Batch) -> String {
    let first = batch.first;
    match batch.lines.len() {
        0 => "the empty input".to_string(),
        1 => format!("line {first}"),
        count => format!("lines {first} to {}", first + count as u64 - 1),
    }
}

/// One frame with both answers.
fn frame_report(number: u64, input: &[u8], a: Option<&Vec<u8>>, b: Option<&Vec<u8>>) -> String {
    let mut out = format!("line {number} of the input\n{}\n", shortened(input));
    out += &input_words(input);
    let text = frame_text(input);
    let line = text.as_deref();
    for (name, answer) in [("A", a), ("B", b)] {
        let shown = answer.map_or("no answer".to_string(), |answer| shortened(answer));
        let _ = writeln!(out, "{name} answers {shown}");
    }
    match (answer_of(a), answer_of(b)) {
        (Ok(a), Ok(b)) => out += &side_by_side(&fields(&a, line), &fields(&b, line)),
        (a, b) => {
            for (name, answer) in [("A", a), ("B", b)] {
                out += &one_answer(name, answer, line);
            }
        }
    }
    out
}

/// How much is shown of a line: twice the longest narrow frame.
const SHOWN: usize = 2 * Layout::Narrow.longest_frame();

/// The beginning of a line of any bytes.
fn shortened(text: &[u8]) -> String {
    let most = SHOWN;
    let shown = printable(&text[..text.len().min(most)]);
    let dots = if text.len() > most { "..." } else { "" };
    format!("{shown}{dots}")
}

/// An answer and its layout.
type Laid = (Layout, Answer);

fn fields((layout, answer): &Laid, line: Option<&[u8]>) -> Vec<Field> {
    answer_fields(*layout, answer, line)
}

fn answer_of(line: Option<&Vec<u8>>) -> Result<Laid, String> {
    let line = line.ok_or("there is none")?;
    Answer::of_line(line).map_err(|fault| fault.to_string())
}

/// An answer by itself, where the other one is none.
fn one_answer(name: &str, answer: Result<Laid, String>, line: Option<&[u8]>) -> String {
    match answer {
        Err(fault) => format!("{name}: no answer line: {fault}\n"),
        Ok(answer) => format!("{name}:\n{}", field_lines(&fields(&answer, line), "  ")),
    }
}

/// Both answers field by field. A field that differs has a `*` and its bytes.
fn side_by_side(a: &[Field], b: &[Field]) -> String {
    let mut out = String::new();
    for name in names(a, b) {
        let find = |fields: &[Field]| fields.iter().find(|field| field.name == name).cloned();
        let (a, b) = (find(a), find(b));
        let said = |field: &Option<Field>| field.as_ref().is_some_and(|field| !field.absent);
        if a == b {
            if said(&a) {
                let _ = writeln!(out, "  {name:20} {}", words(&a));
            }
            continue;
        }
        let _ = writeln!(out, "* {name:20} A: {} {}", words(&a), bytes(&a));
        let _ = writeln!(out, "* {:20} B: {} {}", "", words(&b), bytes(&b));
    }
    out
}

/// The names of both answers' fields, in their order.
fn names(a: &[Field], b: &[Field]) -> Vec<String> {
    let mut names: Vec<String> = a.iter().map(|field| field.name.clone()).collect();
    for field in b {
        if !names.contains(&field.name) {
            names.push(field.name.clone());
        }
    }
    names
}

fn words(field: &Option<Field>) -> String {
    field
        .as_ref()
        .map_or("-".to_string(), |field| field.words.clone())
}

fn bytes(field: &Option<Field>) -> String {
    match field {
        Some(field) if !field.bytes.is_empty() => {
            format!("[{}]", printable(&hex::encode(&field.bytes)))
        }
        _ => String::new(),
    }
}

#[cfg(test)]
mod tests {
    use super::*;
    use crate::reference::answer_line;

    const SAMPLE: &[u8] = b"053428613029040200000107000102000002040800040500ff";
    const WIDE_SAMPLE: &[u8] =
        b"w0500342861302904000200000001000700010002000000020004000800040005000000ffff";

    fn outcome(answer: &[u8]) -> Outcome {
        Outcome {
            answers: vec![answer.to_vec()],
            fault: None,
            crashed: false,
        }
    }

    fn batch() -> Batch {
        batch_of(SAMPLE)
    }

    fn batch_of(line: &[u8]) -> Batch {
        Batch {
            first: 1,
            lines: vec![line.to_vec()],
            unterminated: false,
        }
    }

    #[test]
    fn equal_answers_have_no_difference() {
        let right = outcome(&answer_line(SAMPLE));
        assert_eq!(difference(&batch(), &right, &right), None);
    }

    #[test]
    fn a_difference_names_its_field() {
        let right = answer_line(SAMPLE);
        let mut wrong = right.clone();
        wrong[3] = b'3';
        let report = difference(&batch(), &outcome(&right), &outcome(&wrong)).unwrap();
        assert!(report.contains("text    `4(a0)` (5 bytes)"), "{report}");
        assert!(
            report.contains("* cursor               A: 4 [04]"),
            "{report}"
        );
        assert!(report.contains("B: 3 [03]"), "{report}");
        assert!(
            report.contains("  form                 8 displacement"),
            "{report}"
        );
    }

    #[test]
    fn a_wide_difference_has_wide_bytes() {
        let right = answer_line(WIDE_SAMPLE);
        let mut wrong = right.clone();
        wrong[4] = b'3';
        let batch = batch_of(WIDE_SAMPLE);
        let report = difference(&batch, &outcome(&right), &outcome(&wrong)).unwrap();
        assert!(report.contains("layout  wide"), "{report}");
        assert!(report.contains("A: 4 [0400]"), "{report}");
        assert!(report.contains("B: 3 [0300]"), "{report}");
    }

    #[test]
    fn another_layout_is_a_difference() {
        let (right, wrong) = (outcome(b"w0208"), outcome(b"0208"));
        let report = difference(&batch_of(b"w"), &right, &wrong).unwrap();
        assert!(
            report.contains("* layout               A: wide"),
            "{report}"
        );
    }

    #[test]
    fn no_answer_is_a_difference() {
        let right = outcome(&answer_line(SAMPLE));
        for wrong in [&b"00"[..], b"", b"0x", b"\xff", b"w"] {
            let report = difference(&batch(), &right, &outcome(wrong)).unwrap();
            assert!(report.contains("B: no answer line"), "{report}");
        }
        let nothing = Outcome {
            answers: vec![],
            fault: Some("it gave 0 lines for 1 frames".to_string()),
            crashed: false,
        };
        let report = difference(&batch(), &nothing, &nothing).unwrap();
        assert!(report.contains("A failed on line 1: "), "{report}");
        assert!(report.contains("there is none"), "{report}");
    }
}
