//! Lines of an input of any bytes, in bounded memory.

use std::io::{self, BufRead, Read};

/// One line, without its line feed.
#[derive(Debug, PartialEq, Eq)]
pub enum Line<'a> {
    /// The whole line.
    Whole(&'a [u8]),
    /// The line is longer than the limit; this is its beginning.
    Long(&'a [u8]),
}

/// The lines of an input. A line ends at a line feed or at the input's end.
pub struct Lines<R> {
    input: R,
    limit: usize,
    line: Vec<u8>,
}

impl<R: BufRead> Lines<R> {
    /// The lines of `input`, of which at most `limit` bytes are kept at a time.
    pub fn new(input: R, limit: usize) -> Self {
        Self {
            input,
            limit,
            line: Vec::new(),
        }
    }

    /// The next line, `None` at the input's end. Nothing follows the last line feed.
    pub fn next_line(&mut self) -> io::Result<Option<Line<'_>>> {
        self.line.clear();
        let room = self.limit as u64 + 1;
        let read = (&mut self.input)
            .take(room)
            .read_until(b'\n', &mut self.line)?;
        if read == 0 {
            return Ok(None);
        }
        if self.line.last() == Some(&b'\n') {
            self.line.pop();
        } else if self.line.len() > self.limit {
            self.input.skip_until(b'\n')?;
            self.line.truncate(self.limit);
            return Ok(Some(Line::Long(&self.line)));
        }
        Ok(Some(Line::Whole(&self.line)))
    }
}

#[cfg(test)]
mod tests {
    use super::*;

    fn all(input: &[u8]) -> Vec<(bool, Vec<u8>)> {
        let mut lines = Lines::new(input, 3);
        let mut out = Vec::new();
        while let Some(line) = lines.next_line().unwrap() {
            out.push(match line {
                Line::Whole(text) => (true, text.to_vec()),
                Line::Long(text) => (false, text.to_vec()),
            });
        }
        out
    }

    #[test]
    fn lines_end_at_a_line_feed_or_the_end() {
        assert_eq!(all(b""), []);
        assert_eq!(all(b"\n"), [(true, b"".to_vec())]);
        assert_eq!(all(b"a\n\nb"), all(b"a\n\nb\n"));
        assert_eq!(all(b"a\n\nb").len(), 3);
    }

    #[test]
    fn a_long_line_is_one_line() {
        assert_eq!(all(b"abc"), [(true, b"abc".to_vec())]);
        assert_eq!(all(b"abc\n"), [(true, b"abc".to_vec())]);
        assert_eq!(all(b"abcd"), [(false, b"abc".to_vec())]);
        let after = (true, b"x".to_vec());
        assert_eq!(all(b"abcdefgh\nx"), [(false, b"abc".to_vec()), after]);
    }
}
