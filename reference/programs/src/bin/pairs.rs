//! Feeds a program frames in both layouts and prints the first that it does not read alike.

use frames::command_line::{self, nesting_limit, number, option, usage, Stop, FAULT};
use frames::pairs::{difference, Pairs};
use frames::refusal::LIMIT_PROGRAM;
use std::io::{self, Write};
use std::process::ExitCode;

const HELP: &str = "usage: pairs [--timeout SECONDS] PROGRAM [--limit N] SEED COUNT

PROGRAM answers frames: a path, or a path and arguments with blanks between. It
is given COUNT narrow frames of SEED, each as it is and widened, in batches.
Prints how many pairs there were and `no difference` (exit status 0), or the
first pair whose answers are not one reading, in words, or how the program
failed (exit status 1).
  --timeout SECONDS   how long the program may take for a batch (60)
  --limit N           nests lie around this nesting limit, 1 to 128 (64). The
                      program is told its own: pairs 'P --limit 3' --limit 3 ...
";

fn main() -> ExitCode {
    command_line::run("pairs", HELP, program)
}

fn program(arguments: &[String]) -> Result<ExitCode, Stop> {
    let (seconds, rest) = option("--timeout", arguments)?;
    let (limit, rest) = nesting_limit(&rest)?;
    let [command, seed, count] = &rest[..] else {
        return usage("PROGRAM, SEED and COUNT are wanted");
    };
    let (seed, count) = (number("SEED", seed)?, number("COUNT", count)?);
    let mut pairs = Pairs::new(seed, count, limit.unwrap_or(LIMIT_PROGRAM));
    loop {
        let batch = pairs.next_batch();
        if let Some(report) = difference(command, &batch, seconds.unwrap_or(60))? {
            write!(io::stdout(), "{report}")?;
            return Ok(ExitCode::from(FAULT));
        }
        if batch.lines.is_empty() {
            writeln!(io::stdout(), "{count} pairs, no difference")?;
            return Ok(ExitCode::SUCCESS);
        }
    }
}
