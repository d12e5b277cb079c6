//! Operands as people write them, a line each, to frames.

use frames::command_line::{self, complain, number, usage, Stop, FAULT};
use frames::frame::Frame;
use frames::layout::Layout;
use frames::lexer::{tokens_of, TextFault};
use frames::lines::{Line, Lines};
use frames::tokens::list_bytes;
use std::io::{self, BufReader, BufWriter, Write};
use std::process::ExitCode;

const HELP: &str =
    "usage: frame [--wide] [--start N] [--mark N] [--keep-whitespace] < texts > frames

Writes the frame of each line of standard input, by a small lexer.
  --wide              wide frames, for lines of up to 4095 bytes and 1023 tokens
  --start N           the place where the reading starts (0)
  --mark N            the place that is read as a symbol (the largest number, none)
  --keep-whitespace   blanks become Whitespace tokens; without it they leave gaps
A line with a byte outside 20 to 7e hexadecimal, or of over 255 bytes where the
frames are narrow, has no frame: standard error says where, and the exit status
is 1.
";

struct Options {
    layout: Layout,
    start: usize,
    mark: usize,
    keep_whitespace: bool,
}

fn main() -> ExitCode {
    command_line::run("frame", HELP, program)
}

fn program(arguments: &[String]) -> Result<ExitCode, Stop> {
    let options = options(arguments)?;
    let mut lines = Lines::new(
        BufReader::new(io::stdin().lock()),
        options.layout.longest_line(),
    );
    let mut output = BufWriter::new(io::stdout().lock());
    let mut status = ExitCode::SUCCESS;
    let mut line_number = 0u64;
    while let Some(line) = lines.next_line()? {
        line_number += 1;
        match frame_line(line, &options) {
            Ok(frame) => {
                output.write_all(&frame)?;
                output.write_all(b"\n")?;
            }
            Err(fault) => {
                complain(&format!("frame: line {line_number}, {fault}"));
                status = ExitCode::from(FAULT);
            }
        }
    }
    output.flush()?;
    Ok(status)
}

/// The frame of one text.
fn frame_line(line: Line, options: &Options) -> Result<Vec<u8>, TextFault> {
    let (text, whole) = match line {
        Line::Whole(text) => (text, true),
        Line::Long(beginning) => (beginning, false),
    };
    let layout = options.layout;
    let tokens = tokens_of(layout, text, options.keep_whitespace);
    if !whole && !matches!(tokens, Err(TextFault::ForeignByte(..))) {
        return Err(TextFault::TooLong(layout));
    }
    let frame = Frame {
        layout,
        line: text,
        list: &list_bytes(layout, &tokens?),
        start: options.start,
        mark: options.mark,
    };
    Ok(frame.to_line())
}

fn options(arguments: &[String]) -> Result<Options, Stop> {
    let layout = match arguments.iter().any(|argument| argument == "--wide") {
        true => Layout::Wide,
        false => Layout::Narrow,
    };
    let mut options = Options {
        layout,
        start: 0,
        mark: layout.largest(),
        keep_whitespace: false,
    };
    let mut rest = arguments.iter();
    while let Some(argument) = rest.next() {
        match argument.as_str() {
            "--wide" => {}
            "--keep-whitespace" => options.keep_whitespace = true,
            "--start" => options.start = place(layout, "--start", rest.next())?,
            "--mark" => options.mark = place(layout, "--mark", rest.next())?,
            other => return usage(format!("`{other}` is no argument of this program")),
        }
    }
    Ok(options)
}

/// The place that follows an option.
fn place(layout: Layout, option: &str, text: Option<&String>) -> Result<usize, Stop> {
    let wanted = format!("a place, 0 to {}", layout.largest());
    let Some(text) = text else {
        return usage(format!("{option} wants {wanted}"));
    };
    match number(option, text)? {
        place if place <= layout.largest() => Ok(place),
        place => usage(format!("{option} is {place}, but {wanted}, is wanted")),
    }
}
