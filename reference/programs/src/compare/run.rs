//! One program on one batch: its answers, or how it failed.

use super::Batch;
use crate::layout::Layout;
use std::io::{self, Read, Write};
use std::path::Path;
use std::process::{Child, ChildStdin, ChildStdout, Command, ExitStatus, Stdio};
use std::sync::mpsc::{self, Receiver};
use std::thread::{self, JoinHandle};
use std::time::{Duration, Instant};

/// How long the output may stay open once the program has ended.
const GRACE: Duration = Duration::from_secs(2);

/// What a run gave.
pub struct Outcome {
    /// The output's lines, without their line feeds.
    pub answers: Vec<Vec<u8>>,
    /// What is wrong with the run as a whole, in words.
    pub fault: Option<String>,
    /// Whether the program ended by itself, and not well.
    pub crashed: bool,
}

/// Runs `command` on a batch, for at most `seconds`.
pub fn run(command: &str, batch: &Batch, seconds: u64) -> io::Result<Outcome> {
    let mut child = spawn(command)?;
    let writer = write_all(child.stdin.take().expect("a pipe"), batch.input());
    let most = most_output(batch);
    let reader = read_some(child.stdout.take().expect("a pipe"), most);
    let status = wait(&mut child, Duration::from_secs(seconds))?;
    // A child of the program may hold the pipe open, so this does not wait forever.
    let output = reader.recv_timeout(GRACE).unwrap_or(Ok(Vec::new()))?;
    let not_read = writer.is_finished() && writer.join().is_ok_and(|written| written.is_err());
    let fault = too_much(&output, most)
        .or_else(|| status_fault(status, seconds))
        .or_else(|| output_fault(&output, batch, not_read));
    Ok(Outcome {
        answers: lines_of(&output),
        fault,
        crashed: status.is_some_and(|status| !status.success()),
    })
}

/// How many bytes the longest answers to a batch have, and one narrow answer more.
fn most_output(batch: &Batch) -> u64 {
    let longest = |layout: Layout| layout.longest_answer() as u64 + 1;
    let layouts = batch.lines.iter().map(|line| Layout::of_line(line).0);
    layouts.map(longest).sum::<u64>() + longest(Layout::Narrow)
}

/// Starts a program. The command is a path, or a path and arguments with blanks between.
fn spawn(command: &str) -> io::Result<Child> {
    let mut words = command.split_whitespace();
    let mut program = match Path::new(command).exists() {
        true => Command::new(command),
        false => Command::new(words.next().unwrap_or_default()),
    };
    if !Path::new(command).exists() {
        program.args(words);
    }
    let started = program.stdin(Stdio::piped()).stdout(Stdio::piped()).spawn();
    started.map_err(|error| io::Error::new(error.kind(), format!("`{command}`: {error}")))
}

/// Writes the input in a thread of its own, so that a program that answers early is not held up.
fn write_all(mut pipe: ChildStdin, input: Vec<u8>) -> JoinHandle<io::Result<()>> {
    thread::spawn(move || pipe.write_all(&input))
}

/// Reads the output in a thread of its own, and no more than the longest answers need.
fn read_some(pipe: ChildStdout, most: u64) -> Receiver<io::Result<Vec<u8>>> {
    let (sender, receiver) = mpsc::channel();
    thread::spawn(move || {
        let mut output = Vec::new();
        let read = pipe.take(most + 1).read_to_end(&mut output);
        // The receiver may have stopped waiting.
        let _ = sender.send(read.map(|_| output));
    });
    receiver
}

/// Waits for the program's end. One that is still running when the time is over is stopped, and
/// has no status.
fn wait(child: &mut Child, limit: Duration) -> io::Result<Option<ExitStatus>> {
    let begin = Instant::now();
    loop {
        if let Some(status) = child.try_wait()? {
            return Ok(Some(status));
        }
        if begin.elapsed() > limit {
            child.kill()?;
            child.wait()?;
            return Ok(None);
        }
        thread::sleep(Duration::from_millis(1));
    }
}

/// What is wrong with a program's end.
fn status_fault(status: Option<ExitStatus>, seconds: u64) -> Option<String> {
    match status {
        None => Some(format!("it did not end in {seconds} seconds")),
        Some(status) => (!status.success()).then(|| format!("it ended with {status}")),
    }
}

/// Whether a program wrote more than it may.
fn too_much(output: &[u8], most: u64) -> Option<String> {
    let over = output.len() as u64 > most;
    over.then(|| format!("it wrote more than {most} bytes, which no answers need"))
}

/// What is wrong with the output of a program that ended well.
fn output_fault(output: &[u8], batch: &Batch, not_read: bool) -> Option<String> {
    let (wanted, given) = (batch.lines.len(), lines_of(output).len());
    if wanted != given {
        let input = match not_read {
            true => ", and did not read all of its input",
            false => "",
        };
        return Some(format!("it gave {given} lines for {wanted} frames{input}"));
    }
    let open = output.last().is_some_and(|byte| *byte != b'\n');
    open.then(|| "its last line lacks its line feed".to_string())
}

/// The lines of an output. The last one may lack its line feed.
fn lines_of(output: &[u8]) -> Vec<Vec<u8>> {
    let whole = output.strip_suffix(b"\n").unwrap_or(output);
    if output.is_empty() {
        return Vec::new();
    }
    whole
        .split(|byte| *byte == b'\n')
        .map(<[u8]>::to_vec)
        .collect()
}

#[cfg(test)]
mod tests {
    use super::*;

    fn batch() -> Batch {
        Batch {
            first: 1,
            lines: vec![b"00".to_vec(), b"01".to_vec()],
            unterminated: false,
        }
    }

    fn fault(command: &str) -> Option<String> {
        run(command, &batch(), 1).unwrap().fault
    }

    #[test]
    fn a_program_that_ends_well() {
        let outcome = run("cat", &batch(), 10).unwrap();
        assert_eq!(outcome.answers, batch().lines);
        assert_eq!(outcome.fault, None);
    }

    #[test]
    fn programs_that_fail() {
        assert!(fault("false").unwrap().contains("exit status: 1"));
        assert!(fault("true").unwrap().contains("0 lines for 2 frames"));
        assert!(fault("head -n 1").unwrap().contains("1 lines for 2 frames"));
        assert!(fault("sleep 30")
            .unwrap()
            .contains("did not end in 1 seconds"));
        assert!(fault("yes").unwrap().contains("more than"));
        assert!(run("no/such/program", &batch(), 1).is_err());
    }

    #[test]
    fn lines_of_an_output() {
        assert_eq!(lines_of(b"").len(), 0);
        assert_eq!(lines_of(b"\n").len(), 1);
        assert_eq!(lines_of(b"a\n\nb").len(), 3);
        assert_eq!(lines_of(b"a\n\nb\n").len(), 3);
    }
}
