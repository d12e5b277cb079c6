//! Two programs on the same frames: the first difference, for a reader.

mod batch;
mod report;
mod run;

pub use batch::{Batch, Batches};
pub use run::{run, Outcome};

use report::difference;
use std::io;
use std::thread;

/// How many lines a batch has. Each batch is a run of its own, so that a program's fault is found
/// near its frame and no run holds much at once.
pub const BATCH: usize = 10_000;

/// The two programs.
pub struct Programs {
    /// The first, as a command.
    pub a: String,
    /// The second, as a command.
    pub b: String,
    /// How long each may take for a batch.
    pub seconds: u64,
}

impl Programs {
    /// What the programs differ in on a batch, or how one failed; `None` if they agree.
    pub fn difference(&self, batch: &Batch) -> io::Result<Option<String>> {
        let (a, b) = self.run_both(batch)?;
        let report = difference(batch, &a, &b);
        for (command, outcome) in [(&self.a, &a), (&self.b, &b)] {
            if outcome.crashed {
                let alone = self.failing_line(command, batch)?;
                return Ok(alone.or(report));
            }
        }
        Ok(report)
    }

    fn run_both(&self, batch: &Batch) -> io::Result<(Outcome, Outcome)> {
        let (a, b) = thread::scope(|scope| {
            let a = scope.spawn(|| run(&self.a, batch, self.seconds));
            let b = run(&self.b, batch, self.seconds);
            (a.join().expect("the thread of A ends"), b)
        });
        Ok((a?, b?))
    }

    /// The report on the one line at which a program crashes.
    ///
    /// A crash loses what the program had not written yet, so the first missing answer says
    /// little. The line is the last of the shortest beginning of the batch that crashes; it is
    /// reported only if it shows something by itself.
    fn failing_line(&self, command: &str, batch: &Batch) -> io::Result<Option<String>> {
        let (mut passes, mut crashes) = (0, batch.lines.len());
        while crashes - passes > 1 {
            let middle = passes + (crashes - passes) / 2;
            match run(command, &batch.part(0, middle), self.seconds)?.crashed {
                true => crashes = middle,
                false => passes = middle,
            }
        }
        let line = batch.part(crashes.saturating_sub(1), crashes);
        let (a, b) = self.run_both(&line)?;
        Ok(difference(&line, &a, &b))
    }
}

#[cfg(test)]
mod tests {
    use super::*;

    /// `grep` ends with status 1 where no line matches: a crash that only some inputs have.
    #[test]
    fn a_crash_is_found_at_its_line() {
        let programs = Programs {
            a: "cat".to_string(),
            b: "grep -v x".to_string(),
            seconds: 10,
        };
        let batch = Batch {
            first: 1,
            lines: vec![b"x".to_vec()],
            unterminated: false,
        };
        let report = programs.difference(&batch).unwrap().unwrap();
        assert!(report.contains("B failed on line 1: "), "{report}");
        assert!(report.contains("exit status: 1"), "{report}");
    }
}
