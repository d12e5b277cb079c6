//! Where a `w` stands or should: what the two layouts make of each other's lines.

use super::table::{Expected, Section};
use crate::layout::{Layout, WIDE_LETTER};

/// The counts of letters.
pub struct Letters(Section);

impl Letters {
    /// Nothing counted yet.
    pub fn new() -> Self {
        let mut section = Section::new("letters");
        for words in [
            "w alone",
            "W at the beginning",
            "w further on in a narrow line",
            "w further on in a wide line",
        ] {
            section.add(words.to_string(), Expected::Always);
        }
        Self(section)
    }

    /// Counts one line of input.
    pub fn count(&mut self, line: &[u8]) {
        self.0.hit_if(line == [WIDE_LETTER], 0);
        self.0.hit_if(line.first() == Some(&b'W'), 1);
        let (layout, digits) = Layout::of_line(line);
        let row = match layout {
            Layout::Narrow => 2,
            Layout::Wide => 3,
        };
        self.0.hit_if(digits.contains(&WIDE_LETTER), row);
    }

    /// The section.
    pub fn section(&self) -> &Section {
        &self.0
    }
}
