//! Frames by seed and count, or a table of what the reference answers to them.

use frames::command_line::{self, complain, layout, nesting_limit, number, usage, Stop, FAULT};
use frames::coverage::Coverage;
use frames::generate::Generator;
use frames::layout::Layout;
use frames::reference::Reference;
use frames::refusal::LIMIT_PROGRAM;
use std::fs;
use std::io::{self, BufWriter, Write};
use std::process::ExitCode;

const HELP: &str = "usage: generate [--layout L] [--limit N] SEED COUNT > frames
       generate --coverage [--layout L] [--limit N] SEED COUNT
       generate --coverage [--layout L] [--limit N] --file FILE

Writes COUNT lines: frames, and now and then a line that is none. The same seed
gives the same lines everywhere.
  --coverage   run the reference on the frames instead, and print how often each
               form, kind, shape and problem, refusal and extreme occurs in
               each layout; the exit status is 1 if one that can occur does not,
               or one that cannot does
  --file       count the lines of FILE instead of generated ones; what takes
               lines of over 20483 characters may be missing there
  --layout L   narrow, wide or both (both: three of four are narrow)
  --limit N    nests lie around this nesting limit, 1 to 128 (64), which is the
               reference's for --coverage
";

fn main() -> ExitCode {
    command_line::run("generate", HELP, program)
}

fn program(arguments: &[String]) -> Result<ExitCode, Stop> {
    let (limit, arguments) = nesting_limit(arguments)?;
    let (layout, arguments) = layout(&arguments)?;
    let (coverage, rest) = match arguments.split_first() {
        Some((first, rest)) if first == "--coverage" => (true, rest),
        _ => (false, &arguments[..]),
    };
    let [seed, count] = rest else {
        return usage("SEED and COUNT are wanted");
    };
    if coverage && seed == "--file" {
        let input = fs::read(count)?;
        let text = input.strip_suffix(b"\n").unwrap_or(&input);
        let lines = text.split(|byte| *byte == b'\n').map(<[u8]>::to_vec);
        return print_coverage(lines, limit, layout, false);
    }
    let (seed, count) = (number("SEED", seed)?, number("COUNT", count)?);
    let generator = Generator {
        seed,
        limit: limit.unwrap_or(LIMIT_PROGRAM),
        layout,
    };
    if coverage {
        let lines = (0..count).map(|number| generator.line(number));
        return print_coverage(lines, limit, layout, true);
    }
    let mut output = BufWriter::with_capacity(1 << 16, io::stdout().lock());
    for number in 0..count {
        output.write_all(&generator.line(number))?;
        output.write_all(b"\n")?;
    }
    output.flush()?;
    Ok(ExitCode::SUCCESS)
}

fn print_coverage(
    lines: impl Iterator<Item = Vec<u8>>,
    limit: Option<usize>,
    layout: Option<Layout>,
    far_lines: bool,
) -> Result<ExitCode, Stop> {
    let mut coverage = Coverage::new(limit.unwrap_or(LIMIT_PROGRAM), layout);
    let mut reference = limit.map_or_else(Reference::default, Reference::at_limit);
    let mut answer = Vec::new();
    for line in lines {
        answer.clear();
        reference.answer(&line, &mut answer);
        coverage.count(&line, &answer);
    }
    write!(io::stdout(), "{}", coverage.table())?;
    let faults = coverage.faults(far_lines);
    for fault in &faults {
        complain(&format!("generate: {fault}"));
    }
    let status = if faults.is_empty() { 0 } else { FAULT };
    Ok(ExitCode::from(status))
}
