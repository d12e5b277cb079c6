//! Rows of counts, each with what is expected of it.

use std::fmt::Write;
use std::ops::Range;

/// Whether a row's event can occur.
#[derive(Debug, Clone, Copy, PartialEq, Eq)]
pub enum Expected {
    /// It can, so a long enough run has it.
    Always,
    /// It can, but only in a line that is longer than the frames that are read.
    InFarLines,
    /// It cannot.
    Never,
}

struct Row {
    words: String,
    expected: Expected,
    count: u64,
}

/// Some rows under a title.
pub struct Section {
    title: &'static str,
    rows: Vec<Row>,
}

impl Section {
    /// A section without rows.
    pub fn new(title: &'static str) -> Self {
        let rows = Vec::new();
        Self { title, rows }
    }

    /// A section whose rows all occur.
    pub fn of_words(title: &'static str, words: &[&str]) -> Self {
        let mut section = Self::new(title);
        for word in words {
            section.add(word.to_string(), Expected::Always);
        }
        section
    }

    /// A section whose rows all occur and are numbered from 1.
    pub fn numbered(title: &'static str, words: &[&str]) -> Self {
        let mut section = Self::new(title);
        for (number, word) in (1..).zip(words) {
            section.add(format!("{number} {word}"), Expected::Always);
        }
        section
    }

    /// The section with rows that cannot occur under a condition.
    pub fn never_if(mut self, condition: bool, rows: Range<usize>) -> Self {
        if condition {
            for row in &mut self.rows[rows] {
                row.expected = Expected::Never;
            }
        }
        self
    }

    /// Adds a row.
    pub fn add(&mut self, words: String, expected: Expected) {
        self.rows.push(Row {
            words,
            expected,
            count: 0,
        });
    }

    /// Counts one event of a row.
    pub fn hit(&mut self, row: usize) {
        self.rows[row].count += 1;
    }

    /// Counts one event of a row, if it took place.
    pub fn hit_if(&mut self, took_place: bool, row: usize) {
        self.rows[row].count += u64::from(took_place);
    }

    /// The section for a reader, if it has rows, with a word before its title. A row that cannot
    /// occur, and did not, is left out.
    pub fn table(&self, word: &str) -> String {
        if self.rows.is_empty() {
            return String::new();
        }
        let mut out = format!("\n{word}: {}\n", self.title);
        let shown = |row: &&Row| row.expected != Expected::Never || row.count > 0;
        for row in self.rows.iter().filter(shown) {
            let note = match (row.expected, row.count) {
                (Expected::Always | Expected::InFarLines, 0) => "  MISSING",
                (Expected::Never, _) => "  UNEXPECTED",
                _ => "",
            };
            let _ = writeln!(out, "{:10}  {}{note}", row.count, row.words);
        }
        out
    }

    /// The rows that are not as expected of lines that are all short or not.
    pub fn faults(&self, far_lines: bool) -> Vec<String> {
        let mut faults = Vec::new();
        for row in &self.rows {
            let wanted = match row.expected {
                Expected::Always => true,
                Expected::InFarLines => far_lines,
                Expected::Never => false,
            };
            if wanted && row.count == 0 {
                faults.push(format!("{}: {} does not occur", self.title, row.words));
            }
            if row.expected == Expected::Never && row.count > 0 {
                faults.push(format!("{}: {} occurs", self.title, row.words));
            }
        }
        faults
    }
}
