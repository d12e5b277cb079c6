//! One program on the same frames in both layouts: its answers must be one reading.

mod values;
mod widened;

use crate::answer::Answer;
use crate::compare::{run, Batch, Outcome, BATCH};
use crate::frame::frame_text;
use crate::generate::Generator;
use crate::layout::Layout;
use crate::printable::printable;
use crate::words::{answer_fields, field_lines, input_words};
use std::io;
use values::{first_difference, narrow_values, wide_values};
use widened::widened;

/// Pairs of frames by seed: narrow lines that are frames, each with its wide one behind it.
pub struct Pairs {
    generator: Generator,
    number: u64,
    count: u64,
    given: u64,
}

impl Pairs {
    /// `count` pairs of `seed`, with nests around `limit`.
    pub fn new(seed: u64, count: u64, limit: usize) -> Self {
        let generator = Generator {
            limit,
            layout: Some(Layout::Narrow),
            ..Generator::new(seed)
        };
        Self {
            generator,
            number: 0,
            count,
            given: 0,
        }
    }

    /// The next pairs as lines of input; none at the end.
    pub fn next_batch(&mut self) -> Batch {
        let first = 2 * self.given + 1;
        let mut lines = Vec::new();
        while lines.len() < BATCH && self.given < self.count {
            let narrow = self.generator.line(self.number);
            self.number += 1;
            if let Some(wide) = widened(&narrow) {
                lines.extend([narrow, wide]);
                self.given += 1;
            }
        }
        Batch {
            first,
            lines,
            unterminated: false,
        }
    }
}

/// What a program reads differently in the two layouts, or how it failed; `None` if nothing.
pub fn difference(command: &str, batch: &Batch, seconds: u64) -> io::Result<Option<String>> {
    let outcome = run(command, batch, seconds)?;
    let report = first_report(batch, &outcome);
    let pairs = batch.lines.len() as u64 / 2;
    let (before, last) = (batch.first / 2, batch.first / 2 + pairs);
    let fault = outcome
        .fault
        .map(|fault| format!("it failed on pairs {} to {last}: {fault}\n", before + 1));
    Ok(match (fault, report) {
        (None, report) => report,
        (Some(fault), report) => Some(fault + &report.unwrap_or_default()),
    })
}

/// The first pair that is not read alike.
fn first_report(batch: &Batch, outcome: &Outcome) -> Option<String> {
    let lines = batch.lines.chunks_exact(2);
    let answers = outcome.answers.chunks_exact(2);
    for (place, (lines, answers)) in lines.zip(answers).enumerate() {
        if let Some(what) = pair_difference(&answers[0], &answers[1]) {
            let number = batch.first / 2 + place as u64 + 1;
            let shown = [0, 1].map(|one| side(&lines[one], &answers[one]));
            return Some(format!("pair {number}: {what}\n{}{}", shown[0], shown[1]));
        }
    }
    None
}

/// What the narrow answer and the wide one say differently.
fn pair_difference(narrow: &[u8], wide: &[u8]) -> Option<String> {
    match (narrow_values(narrow), wide_values(wide)) {
        (Ok(narrow), Ok(wide)) => first_difference(&narrow, &wide),
        (Err(fault), _) => Some(format!("the narrow answer is none: {fault}")),
        (_, Err(fault)) => Some(format!("the wide answer is none: {fault}")),
    }
}

/// A frame and its answer, as they are and in words.
fn side(line: &[u8], answer: &[u8]) -> String {
    let text = frame_text(line);
    let words = match Answer::of_line(answer) {
        Ok((layout, answer)) => field_lines(&answer_fields(layout, &answer, text.as_deref()), "  "),
        Err(fault) => format!("  no answer line: {fault}\n"),
    };
    let (shown, given) = (printable(line), printable(answer));
    format!("{shown}\n{}answers {given}\n{words}", input_words(line))
}

#[cfg(test)]
mod tests {
    use super::*;
    use crate::reference::answer_line;

    const COUNT: u64 = 3000;

    #[test]
    fn the_reference_reads_both_alike() {
        let mut pairs = Pairs::new(1, COUNT, 64);
        let batch = pairs.next_batch();
        assert_eq!(batch.lines.len() as u64, 2 * COUNT);
        for lines in batch.lines.chunks_exact(2) {
            let [narrow, wide] = [0, 1].map(|one| answer_line(&lines[one]));
            assert_eq!(pair_difference(&narrow, &wide), None);
        }
        assert!(pairs.next_batch().lines.is_empty());
    }

    /// Any changed digit of the wide answer is seen.
    #[test]
    fn a_wrong_digit_is_seen() {
        let batch = Pairs::new(2, 300, 64).next_batch();
        for lines in batch.lines.chunks_exact(2) {
            let [narrow, wide] = [0, 1].map(|one| answer_line(&lines[one]));
            for at in 0..wide.len() {
                let mut wrong = wide.clone();
                wrong[at] = if wrong[at] == b'5' { b'6' } else { b'5' };
                assert_ne!(pair_difference(&narrow, &wrong), None, "{at}");
            }
            assert_ne!(pair_difference(&narrow, &narrow), None);
            assert_ne!(pair_difference(&wide, &wide), None);
        }
    }

    #[test]
    fn programs_that_fail() {
        let batch = Pairs::new(1, 5, 64).next_batch();
        let report = |command| difference(command, &batch, 10).unwrap().unwrap();
        assert!(report("false").starts_with("it failed on pairs 1 to 5: it ended with"));
        assert!(report("cat").starts_with("pair 1: the narrow answer is none"));
    }
}
