//! Answer lines to words.

use frames::answer::Answer;
use frames::command_line::{self, complain, usage, Stop, FAULT};
use frames::frame::frame_text;
use frames::layout::Layout;
use frames::lines::{Line, Lines};
use frames::words::{answer_fields, field_lines, input_words};
use std::io::{self, BufReader, BufWriter, Write};
use std::process::ExitCode;

const HELP: &str = "usage: decode < answers > words

Says each answer line of standard input, narrow or wide, in words: mode,
registers, tree and diagnostics. A line may also be a frame, a blank and its answer; then the frame
is shown too, and texts are quoted from its line:
    frame < texts > frames; reference < frames | paste -d ' ' frames - | decode
A line that is no answer gives a message with its place on standard error, and
the exit status is 1.
";

fn main() -> ExitCode {
    command_line::run("decode", HELP, program)
}

fn program(arguments: &[String]) -> Result<ExitCode, Stop> {
    if let Some(extra) = arguments.first() {
        return usage(format!("`{extra}`: no argument is wanted"));
    }
    let limit = Layout::Wide.longest_frame() + 1 + Layout::Wide.longest_answer();
    let mut lines = Lines::new(BufReader::new(io::stdin().lock()), limit);
    let mut output = BufWriter::new(io::stdout().lock());
    let mut status = ExitCode::SUCCESS;
    let mut line_number = 0u64;
    while let Some(line) = lines.next_line()? {
        line_number += 1;
        let words = match line {
            Line::Whole(text) => line_words(text),
            Line::Long(_) => Err(format!("more than {limit} characters")),
        };
        match words {
            Ok(words) => writeln!(output, "line {line_number}\n{words}")?,
            Err(fault) => {
                output.flush()?;
                complain(&format!("decode: line {line_number}, {fault}"));
                status = ExitCode::from(FAULT);
            }
        }
    }
    output.flush()?;
    Ok(status)
}

/// An answer, or a frame and its answer, in words.
fn line_words(text: &[u8]) -> Result<String, String> {
    let Some(blank) = text.iter().position(|byte| *byte == b' ') else {
        return answer_words(text, None);
    };
    let (frame, answer) = (&text[..blank], &text[blank + 1..]);
    // The line is known only if the frame is one.
    let line = frame_text(frame);
    let words = answer_words(answer, line.as_deref())
        .map_err(|fault| format!("in the answer behind column {}: {fault}", blank + 1))?;
    Ok(input_words(frame) + &words)
}

/// The fields of an answer that say something.
fn answer_words(text: &[u8], line: Option<&[u8]>) -> Result<String, String> {
    let (layout, answer) = Answer::of_line(text).map_err(|fault| fault.to_string())?;
    Ok(field_lines(&answer_fields(layout, &answer, line), ""))
}
