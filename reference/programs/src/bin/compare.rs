//! Feeds two programs the same frames and prints the first that they answer differently.

use frames::command_line::{self, layout, nesting_limit, number, option, usage, Stop, FAULT};
use frames::compare::{Batches, Programs};
use frames::generate::Generator;
use frames::refusal::LIMIT_PROGRAM;
use std::io::{self, Write};
use std::process::ExitCode;

const HELP: &str = "usage: compare [--timeout SECONDS] A B [--layout L] [--limit N] SEED COUNT
       compare [--timeout SECONDS] A B --file FILE

A and B are programs that answer frames: paths, or paths and arguments with
blanks between. Both are run on the same frames, COUNT of SEED or those of FILE,
in batches. Prints how many were compared and `no difference` (exit status 0),
or the first frame with different answers, field by field, or how a program
failed (exit status 1).
  --timeout SECONDS   how long a program may take for a batch (60)
  --layout L          generated frames are narrow, wide or both (both)
  --limit N           generated frames have nests around this nesting limit, 1 to
                      128 (64). A and B are told theirs on their own:
    compare 'A --limit 3' 'B --limit 3' --limit 3 SEED COUNT
";

fn main() -> ExitCode {
    command_line::run("compare", HELP, program)
}

fn program(arguments: &[String]) -> Result<ExitCode, Stop> {
    let (programs, mut batches) = job(arguments)?;
    let mut compared = 0;
    loop {
        let batch = batches.next_batch()?;
        if let Some(report) = programs.difference(&batch)? {
            let Programs { a, b, .. } = programs;
            write!(io::stdout(), "A = {a}\nB = {b}\n{report}")?;
            return Ok(ExitCode::from(FAULT));
        }
        // The empty batch at the end has been run too: no input, no output.
        if batch.lines.is_empty() {
            writeln!(io::stdout(), "{compared} frames, no difference")?;
            return Ok(ExitCode::SUCCESS);
        }
        compared += batch.lines.len() as u64;
    }
}

fn job(arguments: &[String]) -> Result<(Programs, Batches), Stop> {
    let (seconds, rest) = option("--timeout", arguments)?;
    let (limit, rest) = nesting_limit(&rest)?;
    let (layout, rest) = layout(&rest)?;
    let [a, b, third, fourth] = &rest[..] else {
        return usage("A, B, and SEED COUNT or --file FILE are wanted");
    };
    let batches = match third.as_str() {
        "--file" => Batches::file(fourth)
            .map_err(|error| io::Error::new(error.kind(), format!("{fourth}: {error}")))?,
        seed => {
            let generator = Generator {
                seed: number("SEED", seed)?,
                limit: limit.unwrap_or(LIMIT_PROGRAM),
                layout,
            };
            Batches::generated(generator, number("COUNT", fourth)?)
        }
    };
    let (a, b, seconds) = (a.clone(), b.clone(), seconds.unwrap_or(60));
    Ok((Programs { a, b, seconds }, batches))
}
