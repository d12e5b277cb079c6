//! Frames on standard input, the real Rust's answers on standard output, a line for each line.

use frames::answer::push_refusal;
use frames::command_line::{self, option, usage, Stop};
use frames::layout::Layout;
use frames::lines::{Line, Lines};
use frames::reference::Reference;
use frames::refusal::Refusal;
use std::io::{self, BufReader, BufWriter, Write};
use std::process::ExitCode;

const HELP: &str = "usage: reference [--limit N] < frames > answers

Answers each line of standard input: the operand that parse_operand reads from
the frame, or a refusal. A line that is no frame has the answer 0208. A line
that opens with w is a wide frame or none, and its answer opens with w too.
  --limit N   how many terms may be open in each other, by a copy of the Rust
              that is told at run time; outside 1 to 128 every frame has a
              refusal, 0212 where no other applies. Without it the unchanged
              Rust reads, whose limit is 64
";

fn main() -> ExitCode {
    command_line::run("reference", HELP, program)
}

fn program(arguments: &[String]) -> Result<ExitCode, Stop> {
    let (limit, rest) = option("--limit", arguments)?;
    if let Some(extra) = rest.first() {
        return usage(format!("`{extra}`: only --limit N is wanted"));
    }
    let input = BufReader::with_capacity(1 << 16, io::stdin().lock());
    let mut output = BufWriter::with_capacity(1 << 16, io::stdout().lock());
    let mut lines = Lines::new(input, Layout::Wide.longest_frame());
    let mut reference = limit.map_or_else(Reference::default, Reference::at_limit);
    let mut answer = Vec::new();
    while let Some(line) = lines.next_line()? {
        answer.clear();
        match line {
            Line::Whole(text) => reference.answer(text, &mut answer),
            // Longer than any frame, so it is none.
            Line::Long(beginning) => {
                let (layout, _) = Layout::of_line(beginning);
                push_refusal(&mut answer, layout, Refusal::BadFrame.number());
            }
        }
        answer.push(b'\n');
        output.write_all(&answer)?;
    }
    output.flush()?;
    Ok(ExitCode::SUCCESS)
}
