//! What the Rust's own leaves make of each line of standard input: registers, sizes, numbers, literals.
//!
//! The Rattle program of the same name prints the same for the same lines.

use frames::command_line::{self, usage, Stop};
use s68k::assembler::ast::{
    is_program_counter, is_reserved_name, suppressed_register, Register, SizeSuffix,
    SpecialRegister, Suppressed,
};
use s68k::assembler::source::Span;
use s68k::assembler::token::{parse_digits, string_literal_bytes, NumberBase};
use std::io::{self, BufRead, Write};
use std::process::ExitCode;

const HELP: &str = "usage: leaves < texts

Shows for each line of ASCII text which register, special register, suppressed register,
reserved name, size, number (decimal, hexadecimal, binary, octal) and literal it is.
";

/// The room that a literal has in the Rattle program.
const LITERAL_ROOM: usize = 16;

fn main() -> ExitCode {
    command_line::run("leaves", HELP, program)
}

fn program(arguments: &[String]) -> Result<ExitCode, Stop> {
    if let Some(extra) = arguments.first() {
        return usage(format!("`{extra}`: no argument is wanted"));
    }
    let mut output = io::stdout().lock();
    for line in io::stdin().lock().lines() {
        writeln!(output, "{}", shown(&line?))?;
    }
    Ok(ExitCode::SUCCESS)
}

fn shown(text: &str) -> String {
    let special = SpecialRegister::parse(text).map(|special| (special as u8 + 1).to_string());
    // The run stands behind the first byte of the suffix's token.
    let size = SizeSuffix::from_run(text.get(1..).unwrap_or(""));
    let numbers = [
        NumberBase::Decimal,
        NumberBase::Hexadecimal,
        NumberBase::Binary,
        NumberBase::Octal,
    ]
    .map(|base| number(base, text));
    format!(
        "{text}: register={} special={} pc={} suppressed={} reserved={} size={} numbers={} literal={}",
        or_no(Register::parse(text, Span::empty(0)).map(|register| register.mask_index().to_string())),
        or_no(special),
        flag(is_program_counter(text)),
        or_no(suppressed_register(text).map(suppressed)),
        flag(is_reserved_name(text)),
        or_no(size.map(|size| (size as u8 + 1).to_string())),
        numbers.join(","),
        literal(text),
    )
}

fn or_no(value: Option<String>) -> String {
    value.unwrap_or_else(|| "no".to_string())
}

fn flag(on: bool) -> &'static str {
    if on {
        "yes"
    } else {
        "no"
    }
}

fn suppressed(register: Suppressed) -> String {
    match register {
        Suppressed::Data(number) => number.to_string(),
        Suppressed::Address(number) => (8 + number).to_string(),
        Suppressed::ProgramCounter => "pc".to_string(),
    }
}

/// As `Parser::number` has it: too large only where every digit belongs to the base.
fn number(base: NumberBase, text: &str) -> String {
    let digits = text.get(base.prefix().len()..).unwrap_or("");
    match parse_digits(base, digits) {
        Some(value) => value.to_string(),
        None if !digits.is_empty() && digits.chars().all(|digit| base.is_digit(digit)) => {
            "large".to_string()
        }
        None => "no".to_string(),
    }
}

fn literal(text: &str) -> String {
    let bytes = string_literal_bytes(text);
    if bytes.len() > LITERAL_ROOM {
        return "no room".to_string();
    }
    bytes.into_iter().map(char::from).collect()
}
