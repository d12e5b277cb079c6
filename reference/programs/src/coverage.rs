//! What a run of frames reaches: how often each form, kind, shape and problem, refusal, token
//! kind and extreme occurs, in each layout.

mod extremes;
mod letters;
mod parts;
mod table;

use crate::answer::Answer;
use crate::frame::{Frame, FrameBytes, FrameFault};
use crate::hex::HexFault;
use crate::layout::Layout;
use crate::names;
use crate::records::Records;
use crate::tokens::{first_bad_token, kind_name, TokenFault, KINDS};
use extremes::Extremes;
use letters::Letters;
use parts::Parts;
use table::{Expected, Section};

/// The shapes and problems of `MalformedOperand` that occur together.
pub const REACHABLE: [(u8, &[u8]); 8] = [
    (1, &[1]),
    (2, &[2, 3]),
    (4, &[2, 3]),
    (5, &[2, 3, 5]),
    (6, &[3, 6, 7, 11]),
    (7, &[3, 4]),
    (8, &[3, 6, 7]),
    (9, &[3, 7, 8, 9, 10, 11]),
];

/// How a line may fail to be a frame.
const LINE_FAULTS: [&str; 5] = [
    "another character",
    "odd digit count",
    "ends before the token count",
    "not the length its counts give",
    "longer than any frame",
];

/// The counts of a run.
pub struct Coverage {
    lines: u64,
    layouts: Vec<LayoutCoverage>,
    /// Only where both layouts are wanted.
    letters: Option<Letters>,
}

impl Coverage {
    /// Nothing counted yet of a run with this nesting limit, and of one layout or of both.
    pub fn new(limit: usize, layout: Option<Layout>) -> Self {
        let wanted = |one: &Layout| layout.is_none_or(|only| only == *one);
        let layouts = Layout::BOTH.into_iter().filter(wanted);
        Self {
            lines: 0,
            layouts: layouts.map(|one| LayoutCoverage::new(one, limit)).collect(),
            letters: layout.is_none().then(Letters::new),
        }
    }

    /// Counts one line of input and its answer. A line of another layout than the wanted one is
    /// counted as a line only.
    pub fn count(&mut self, line: &[u8], answer: &[u8]) {
        self.lines += 1;
        if let Some(letters) = &mut self.letters {
            letters.count(line);
        }
        let (layout, _) = Layout::of_line(line);
        let mut layouts = self.layouts.iter_mut();
        if let Some(coverage) = layouts.find(|one| one.layout == layout) {
            coverage.count(line, answer);
        }
    }

    /// Each section with the word that stands before its title.
    fn sections(&self) -> Vec<(String, &Section)> {
        let mut sections = Vec::new();
        for one in &self.layouts {
            let named = one.sections().into_iter();
            sections.extend(named.map(|section| (one.layout.to_string(), section)));
        }
        let letters = self.letters.iter().map(Letters::section);
        sections.extend(letters.map(|section| ("both".to_string(), section)));
        sections
    }

    /// The counts as a table.
    pub fn table(&self) -> String {
        let sections = self.sections().into_iter();
        let tables: String = sections.map(|(name, one)| one.table(&name)).collect();
        format!("{} lines\n{tables}", self.lines)
    }

    /// What should have occurred and did not, or the other way round. A run without far lines need
    /// not have what only these can.
    pub fn faults(&self, far_lines: bool) -> Vec<String> {
        let mut faults = Vec::new();
        for (name, section) in self.sections() {
            let found = section.faults(far_lines).into_iter();
            faults.extend(found.map(|fault| format!("{name}: {fault}")));
        }
        faults
    }
}

/// The counts of the lines of one layout.
struct LayoutCoverage {
    layout: Layout,
    outcomes: Section,
    forms: Section,
    kinds: Section,
    malformed: Section,
    nodes: Section,
    parts: Parts,
    refusals: Section,
    bad_tokens: Section,
    bad_lines: Section,
    tokens: Section,
    extremes: Extremes,
}

impl LayoutCoverage {
    fn new(layout: Layout, limit: usize) -> Self {
        let all = |title, rows: &[&str]| Section::of_words(title, rows);
        let faults: Vec<&str> = TokenFault::ALL.iter().map(|fault| fault.words()).collect();
        let tokens: Vec<&str> = (0..KINDS as u8).filter_map(kind_name).collect();
        Self {
            layout,
            outcomes: all("answers", &OUTCOMES),
            forms: Section::numbered("forms", &names::FORMS),
            kinds: Section::numbered("diagnostics", &names::DIAGNOSTICS),
            malformed: malformed_section(),
            // A unary operator and its operand are two open terms.
            nodes: Section::numbered("nodes", &names::NODES).never_if(limit == 1, 4..5),
            parts: Parts::new(limit),
            refusals: refusal_section(layout),
            bad_tokens: all("bad tokens, by their first fault", &faults),
            bad_lines: bad_lines_section(layout),
            tokens: all("tokens of read frames, from the start on", &tokens),
            extremes: Extremes::new(layout, limit),
        }
    }

    /// Counts one line of input of this layout and its answer.
    fn count(&mut self, line: &[u8], answer: &[u8]) {
        let (layout, answer) = Answer::of_line(answer).expect("the reference's answer is one");
        assert_eq!(layout, self.layout, "an answer has its line's layout");
        let bytes = FrameBytes::of_line(line);
        let frame = bytes.as_ref().map_err(|fault| *fault);
        match frame.and_then(FrameBytes::frame) {
            Ok(frame) => self.count_frame(&frame, line.len(), &answer),
            Err(fault) => self.bad_lines.hit(line_fault(fault)),
        }
        match &answer {
            Answer::Refused(number) => {
                self.outcomes.hit(3);
                let row = names::REFUSALS.iter().position(|row| row.0 == *number);
                self.refusals.hit(row.expect("a refusal"));
            }
            Answer::Reading { records, .. } => self.count_records(records),
        }
    }

    fn count_records(&mut self, records: &Records) {
        self.parts.count(records);
        match &records.operand {
            Some(operand) => {
                self.outcomes.hit(0);
                self.forms.hit(operand.form as usize - 1);
            }
            None if records.diagnostics.is_empty() => self.outcomes.hit(2),
            None => self.outcomes.hit(1),
        }
        for node in &records.nodes {
            self.nodes.hit(node.kind as usize - 1);
        }
        for record in &records.diagnostics {
            self.kinds.hit(record.kind as usize - 1);
            if record.kind == 7 {
                let pair = pair_row(record.shape, record.problem);
                self.malformed.hit(pair);
            }
        }
    }

    fn count_frame(&mut self, frame: &Frame, characters: usize, answer: &Answer) {
        self.extremes.count(frame, characters, answer);
        if let Answer::Refused(4) = answer {
            let (_, fault) = first_bad_token(frame.line, frame.tokens()).expect("a bad token");
            self.bad_tokens.hit(fault as usize);
        }
        if let Answer::Refused(_) = answer {
            return;
        }
        for token in frame.tokens().skip(frame.start) {
            self.tokens.hit(token.kind as usize);
        }
    }

    fn sections(&self) -> Vec<&Section> {
        let mut sections = vec![
            &self.outcomes,
            &self.forms,
            &self.kinds,
            &self.malformed,
            &self.nodes,
        ];
        sections.extend(self.parts.sections());
        sections.extend([
            &self.refusals,
            &self.bad_tokens,
            &self.bad_lines,
            &self.tokens,
        ]);
        sections.extend(self.extremes.sections());
        sections
    }
}

const OUTCOMES: [&str; 4] = [
    "operand",
    "no operand, with diagnostics",
    "no operand, in silence",
    "refused",
];

/// The row of a shape and a problem.
fn pair_row(shape: u8, problem: u8) -> usize {
    (shape as usize - 1) * crate::records::PROBLEMS.len() + problem as usize - 1
}

fn malformed_section() -> Section {
    let mut section = Section::new("MalformedOperand, shape/problem");
    for (shape, shape_name) in (1..).zip(names::SHAPES) {
        for problem in 1..=crate::records::PROBLEMS.len() as u8 {
            let reachable = REACHABLE
                .iter()
                .any(|row| row.0 == shape && row.1.contains(&problem));
            let expected = if reachable {
                Expected::Always
            } else {
                Expected::Never
            };
            section.add(format!("{shape}/{problem} {shape_name}"), expected);
        }
    }
    section
}

/// Refusals 1 and 3 cannot be written as a narrow frame, whose counts are one byte; 6 and 7 speak
/// of stores that a program lends itself; 18 of a limit that no run has.
fn refusal_section(layout: Layout) -> Section {
    let mut section = Section::new("refusals");
    for (number, name) in names::REFUSALS {
        let reachable = match number {
            2 | 4 | 5 | 8 => true,
            1 | 3 => layout == Layout::Wide,
            _ => false,
        };
        let expected = if reachable {
            Expected::Always
        } else {
            Expected::Never
        };
        section.add(format!("{number} {name}"), expected);
    }
    section
}

/// A line longer than any wide frame is longer than what is read.
fn bad_lines_section(layout: Layout) -> Section {
    let mut section = Section::new("lines that are no frames");
    let too_long = match layout {
        Layout::Narrow => Expected::Always,
        Layout::Wide => Expected::InFarLines,
    };
    for (row, words) in LINE_FAULTS.iter().enumerate() {
        let last = row + 1 == LINE_FAULTS.len();
        let expected = if last { too_long } else { Expected::Always };
        section.add(words.to_string(), expected);
    }
    section
}

fn line_fault(fault: FrameFault) -> usize {
    match fault {
        FrameFault::Digits(HexFault::Character(..)) => 0,
        FrameFault::Digits(HexFault::OddCount(_)) => 1,
        FrameFault::Short { .. } => 2,
        FrameFault::Length { .. } => 3,
        FrameFault::TooLong(_) => 4,
    }
}
