//! How every program here takes its arguments and ends.

use crate::layout::Layout;
use crate::refusal::LIMITS;
use std::env;
use std::io::{self, Write};
use std::process::ExitCode;

/// Exit status of a program that found something wrong in its input.
pub const FAULT: u8 = 1;
/// Exit status of a program that was called wrongly.
pub const USAGE: u8 = 2;

/// Why a program ends before its work is done.
pub enum Stop {
    /// It was called wrongly; the text says how.
    Usage(String),
    /// Reading or writing failed.
    Failed(io::Error),
}

impl From<io::Error> for Stop {
    fn from(error: io::Error) -> Self {
        Stop::Failed(error)
    }
}

/// A wrong call, as an error.
pub fn usage<T>(message: impl Into<String>) -> Result<T, Stop> {
    Err(Stop::Usage(message.into()))
}

/// The program's arguments. One that is not UTF-8 is shown with replacement characters.
pub fn arguments() -> Vec<String> {
    env::args_os()
        .skip(1)
        .map(|argument| argument.to_string_lossy().into_owned())
        .collect()
}

/// The number that an argument spells.
pub fn number<T: std::str::FromStr>(name: &str, text: &str) -> Result<T, Stop> {
    match text.parse() {
        Ok(value) => Ok(value),
        Err(_) => usage(format!("{name} is `{text}`, but a number is wanted there")),
    }
}

/// An option's number, if the option stands among the arguments, and the other arguments.
pub fn option<T: std::str::FromStr>(
    name: &str,
    arguments: &[String],
) -> Result<(Option<T>, Vec<String>), Stop> {
    let (text, rest) = option_text(name, "a number", arguments)?;
    let value = text.map(|text| number(name, &text)).transpose()?;
    Ok((value, rest))
}

/// The text behind an option, if the option stands among the arguments, and the other arguments.
fn option_text(
    name: &str,
    wanted: &str,
    arguments: &[String],
) -> Result<(Option<String>, Vec<String>), Stop> {
    let mut rest = arguments.to_vec();
    let Some(at) = rest.iter().position(|text| text == name) else {
        return Ok((None, rest));
    };
    if at + 1 == rest.len() {
        return usage(format!("{name} wants {wanted}"));
    }
    let text = rest.drain(at..at + 2).nth(1);
    Ok((text, rest))
}

/// `--layout narrow`, `wide` or `both`, which is `None` as without the option, and the other
/// arguments.
pub fn layout(arguments: &[String]) -> Result<(Option<Layout>, Vec<String>), Stop> {
    let wanted = "narrow, wide or both";
    let (text, rest) = option_text("--layout", wanted, arguments)?;
    let layout = match text.as_deref() {
        None | Some("both") => None,
        Some("narrow") => Some(Layout::Narrow),
        Some("wide") => Some(Layout::Wide),
        Some(other) => return usage(format!("--layout is `{other}`, but {wanted} is wanted")),
    };
    Ok((layout, rest))
}

/// `--limit N`, a nesting limit that a call may choose, and the other arguments.
pub fn nesting_limit(arguments: &[String]) -> Result<(Option<usize>, Vec<String>), Stop> {
    let (limit, rest) = option("--limit", arguments)?;
    match limit {
        Some(limit) if !LIMITS.contains(&limit) => {
            usage(format!("--limit is {limit}, but 1 to 128 is wanted"))
        }
        _ => Ok((limit, rest)),
    }
}

/// Writes a line to standard error. A closed standard error is no reason to stop.
pub fn complain(message: &str) {
    let _ = writeln!(io::stderr(), "{message}");
}

/// Runs a program: prints its usage where it is asked for or needed, and ends without a word
/// where the reader of its output has gone away.
pub fn run(name: &str, help: &str, program: fn(&[String]) -> Result<ExitCode, Stop>) -> ExitCode {
    let arguments = arguments();
    if arguments.iter().any(|text| text == "--help") {
        let _ = write!(io::stdout(), "{help}");
        return ExitCode::SUCCESS;
    }
    match program(&arguments) {
        Ok(status) => status,
        Err(Stop::Failed(error)) if error.kind() == io::ErrorKind::BrokenPipe => ExitCode::SUCCESS,
        Err(Stop::Failed(error)) => {
            complain(&format!("{name}: {error}"));
            ExitCode::from(FAULT)
        }
        Err(Stop::Usage(message)) => {
            complain(&format!("{name}: {message}\n{}", help.trim_end()));
            ExitCode::from(USAGE)
        }
    }
}
