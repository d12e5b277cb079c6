//! Frames in batches, by seed or from a file.

use super::BATCH;
use crate::generate::Generator;
use std::fs::File;
use std::io::{self, BufRead, BufReader};

/// Some lines of input, one after another.
#[derive(Default)]
pub struct Batch {
    /// The number of the first line, from 1.
    pub first: u64,
    /// The lines, without their line feeds.
    pub lines: Vec<Vec<u8>>,
    /// Whether the last line lacks its line feed, which a program must read all the same.
    pub unterminated: bool,
}

impl Batch {
    /// The lines from `from` to `to`, excluded, as a batch of their own.
    pub fn part(&self, from: usize, to: usize) -> Batch {
        Batch {
            first: self.first + from as u64,
            lines: self.lines[from..to].to_vec(),
            unterminated: false,
        }
    }

    /// The batch as an input.
    pub fn input(&self) -> Vec<u8> {
        let mut input = self.lines.join(&b'\n');
        if !self.lines.is_empty() && !self.unterminated {
            input.push(b'\n');
        }
        input
    }
}

/// Where batches come from.
pub enum Batches {
    /// Generated lines, how many there are, and how many were given.
    Generated {
        generator: Generator,
        count: u64,
        given: u64,
    },
    /// The lines of a file, and how many were given.
    File { file: BufReader<File>, given: u64 },
}

impl Batches {
    /// `count` generated lines.
    pub fn generated(generator: Generator, count: u64) -> Self {
        Batches::Generated {
            generator,
            count,
            given: 0,
        }
    }

    /// The lines of a file.
    pub fn file(path: &str) -> io::Result<Self> {
        let file = BufReader::new(File::open(path)?);
        Ok(Batches::File { file, given: 0 })
    }

    /// The next batch; an empty one at the end.
    pub fn next_batch(&mut self) -> io::Result<Batch> {
        match self {
            Batches::Generated {
                generator,
                count,
                given,
            } => {
                let first = *given;
                *given = (first + BATCH as u64).min(*count);
                let lines = (first..*given).map(|number| generator.line(number));
                Ok(batch(first + 1, lines.collect()))
            }
            Batches::File { file, given } => {
                let lines = file_lines(file)?;
                let first = *given + 1;
                *given += lines.len() as u64;
                Ok(batch(first, lines))
            }
        }
    }
}

/// A batch that lacks its last line feed every other time, where the last line is not empty.
fn batch(first: u64, lines: Vec<Vec<u8>>) -> Batch {
    let odd = (first / BATCH as u64) % 2 == 1;
    let unterminated = odd && lines.last().is_some_and(|line| !line.is_empty());
    Batch {
        first,
        lines,
        unterminated,
    }
}

/// The next lines of a file, at most as many as a batch has.
fn file_lines(file: &mut BufReader<File>) -> io::Result<Vec<Vec<u8>>> {
    let mut lines = Vec::new();
    while lines.len() < BATCH {
        let mut line = Vec::new();
        if file.read_until(b'\n', &mut line)? == 0 {
            break;
        }
        if line.last() == Some(&b'\n') {
            line.pop();
        }
        lines.push(line);
    }
    Ok(lines)
}

#[cfg(test)]
mod tests {
    use super::*;

    #[test]
    fn batches_hold_every_line() {
        let mut batches = Batches::generated(Generator::new(1), 2 * BATCH as u64 + 5);
        let mut lengths = Vec::new();
        loop {
            let batch = batches.next_batch().unwrap();
            if batch.lines.is_empty() {
                break;
            }
            let feeds = batch.input().iter().filter(|byte| **byte == b'\n').count();
            assert_eq!(feeds, batch.lines.len() - usize::from(batch.unterminated));
            lengths.push(batch.lines.len());
        }
        assert_eq!(lengths, [BATCH, BATCH, 5]);
    }
}
