//! Holds document 01's table of spellings against the real `parse_operand`, both ways.
//!
//! A closed spelling is read as its operand, up to its end, with no diagnostic; an operand that is
//! read with no diagnostic and no Error token before the cursor is spelled so, up to the cursor.

use frames::command_line::{self, layout, nesting_limit, number, usage, Stop};
use frames::frame::FrameBytes;
use frames::generate::Generator;
use frames::grammar::Grammar;
use frames::random::Random;
use frames::reference::read_operand;
use frames::refusal::{refusal, LIMIT_PROGRAM};
use frames::tokens::{rust_token, TokenRecord};
use s68k::assembler::parser::driver::NESTING_LIMIT;
use s68k::assembler::token::{Token, TokenKind};
use std::process::ExitCode;

const HELP: &str = "usage: spelling [--limit N] all LENGTH WORDS
       spelling [--limit N] lists SEED COUNT LENGTH
       spelling [--limit N] [--layout L] frames SEED COUNT

all: every list of up to LENGTH words out of WORDS (separated by spaces), with and without a mark.
lists: COUNT random lists of up to LENGTH words. frames: COUNT generated frames.
--layout L: generated frames are narrow, wide or both (both).
--limit N: with another nesting limit, 1 to 128, by the copy of the Rust that is told at run time.
";

/// What was counted, and with which nesting limit, if not with the Rust's own.
#[derive(Default)]
struct Counts {
    limit: Option<usize>,
    lists: u64,
    spellings: u64,
    closed: u64,
    quiet: u64,
    faults: u64,
}

fn main() -> ExitCode {
    command_line::run("spelling", HELP, program)
}

fn program(arguments: &[String]) -> Result<ExitCode, Stop> {
    let (limit, arguments) = nesting_limit(arguments)?;
    let (layout, arguments) = layout(&arguments)?;
    let texts: Vec<&str> = arguments.iter().map(String::as_str).collect();
    let mut counts = Counts {
        limit,
        ..Counts::default()
    };
    match texts[..] {
        ["all", length, ref words @ ..] => all(&mut counts, number("LENGTH", length)?, words),
        ["lists", seed, count, length] => {
            let (seed, count) = (number("SEED", seed)?, number("COUNT", count)?);
            lists(&mut counts, seed, count, number("LENGTH", length)?);
        }
        ["frames", seed, count] => {
            let generator = Generator {
                seed: number("SEED", seed)?,
                limit: limit.unwrap_or(LIMIT_PROGRAM),
                layout,
            };
            frames(&mut counts, generator, number("COUNT", count)?)
        }
        _ => return usage("all, lists or frames is wanted"),
    }
    println!(
        "limit {}: {} lists, {} spellings, {} of them closed, {} quiet operands, {} faults",
        limit.unwrap_or(NESTING_LIMIT),
        counts.lists,
        counts.spellings,
        counts.closed,
        counts.quiet,
        counts.faults
    );
    Ok(ExitCode::from((counts.faults > 0) as u8))
}

/// A word as a token: its kind by its first character.
fn piece(word: &str) -> [u8; 2] {
    let signs = [
        "#", ",", "(", ")", "[", "]", "{", "}", ":", "+", "-", "*", "/", "\\", "&", "!", "|", "^",
        "~", "<<", ">>",
    ];
    if let Some(sign) = signs.iter().position(|sign| *sign == word) {
        return [5 + sign as u8, 0];
    }
    match word.as_bytes()[0] {
        b'0'..=b'9' => [2, 0],
        b'$' => [2, 1],
        b'\'' => [3, 0],
        b'.' => [4, 0],
        b'@' => [1, 0],
        b';' => [28, 0],
        b'?' => [29, 0],
        _ => [0, 0],
    }
}

fn laid_out(words: &[&str]) -> (String, Vec<Token>) {
    let mut line = String::new();
    let mut tokens = Vec::new();
    for word in words {
        let [kind, detail] = piece(word);
        let start = line.len();
        line.push_str(word);
        let token = TokenRecord::new(kind, detail, start, line.len());
        tokens.push(rust_token(token));
    }
    (line, tokens)
}

fn all(counts: &mut Counts, length: usize, words: &[&str]) {
    for n in 1..=length {
        let mut digits = vec![0; n];
        loop {
            let list: Vec<&str> = digits.iter().map(|d| words[*d]).collect();
            let (line, tokens) = laid_out(&list);
            compare(counts, &line, &tokens, 0, None);
            for (place, word) in list.iter().enumerate() {
                if word.starts_with('z') {
                    compare(counts, &line, &tokens, 0, Some(place));
                }
            }
            let Some(next) = digits.iter().rposition(|d| d + 1 < words.len()) else {
                break;
            };
            digits[next] += 1;
            digits[next + 1..].fill(0);
        }
    }
}

const WORDS: [&str; 60] = [
    "(",
    ")",
    ",",
    "(",
    ")",
    ",",
    "(",
    ")",
    ",",
    "[",
    "]",
    "[",
    "]",
    "#",
    "+",
    "-",
    "*",
    "/",
    "<<",
    "&",
    "~",
    "a0",
    "a1",
    "sp",
    "d0",
    "d7",
    "pc",
    "zpc",
    "za0",
    "zd0",
    "zsp",
    "sr",
    "1",
    "2",
    "4",
    "8",
    "3",
    "$1",
    "$",
    ".w",
    ".l",
    ".b",
    ".s",
    ".q",
    ".ww",
    "name",
    "@n",
    "'x'",
    ";",
    "?",
    "a0",
    "d1",
    "n",
    "1",
    "(",
    ")",
    ",",
    "a0",
    ":",
    "99999999999999999999",
];

fn lists(counts: &mut Counts, seed: u64, count: u64, length: usize) {
    for number in 0..count {
        let mut random = Random::new(seed, number);
        let n = random.between(1, length);
        let list: Vec<&str> = (0..n).map(|_| random.pick(&WORDS)).collect();
        let (line, tokens) = laid_out(&list);
        let mark = random.one_in(4).then(|| random.below(n));
        compare(counts, &line, &tokens, 0, mark);
    }
}

fn frames(counts: &mut Counts, generator: Generator, count: u64) {
    for number in 0..count {
        let Ok(bytes) = FrameBytes::of_line(&generator.line(number)) else {
            continue;
        };
        let Ok(frame) = bytes.frame() else {
            continue;
        };
        if refusal(frame.layout, frame.line, frame.list, frame.start).is_some() {
            continue;
        }
        let line = std::str::from_utf8(frame.line).expect("bytes 20 to 7E are UTF-8");
        let tokens: Vec<Token> = frame.tokens().map(rust_token).collect();
        compare(counts, line, &tokens, frame.start, frame.symbol_at());
    }
}

/// Whether the list's end, a comma or EndOfLine is at a place.
fn closed(tokens: &[Token], j: usize) -> bool {
    let kind = tokens.get(j).map(|token| token.kind);
    matches!(kind, None | Some(TokenKind::Comma | TokenKind::EndOfLine))
}

fn compare(counts: &mut Counts, line: &str, tokens: &[Token], own: usize, mark: Option<usize>) {
    let limit = counts.limit.unwrap_or(NESTING_LIMIT);
    let grammar = |suppressed_symbols| Grammar {
        line,
        tokens,
        own,
        mark,
        limit,
        suppressed_symbols,
    };
    let reading = read_operand(counts.limit, line, tokens.to_vec(), own, mark);
    counts.lists += 1;
    for (j, operand) in grammar(false).operands() {
        counts.spellings += 1;
        if !closed(tokens, j) {
            continue;
        }
        counts.closed += 1;
        let same = reading.operand.as_ref() == Some(&operand);
        if !(same && reading.cursor == j && reading.diagnostics.is_empty()) {
            let read = (&reading.operand, reading.cursor, &reading.diagnostics);
            fault(
                counts,
                "spelled, not read",
                line,
                tokens,
                mark,
                &format!("{operand:?} to {j}, but {read:?}"),
            );
        }
    }
    let Some(operand) = &reading.operand else {
        return;
    };
    let error = |token: &Token| token.kind == TokenKind::Error;
    if !reading.diagnostics.is_empty() || tokens[own..reading.cursor].iter().any(error) {
        return;
    }
    counts.quiet += 1;
    let spelled = grammar(true).operands();
    if !spelled
        .iter()
        .any(|(j, spelled)| *j == reading.cursor && spelled == operand)
    {
        fault(
            counts,
            "read, not spelled",
            line,
            tokens,
            mark,
            &format!("{operand:?} to {}", reading.cursor),
        );
    }
}

fn fault(
    counts: &mut Counts,
    what: &str,
    line: &str,
    tokens: &[Token],
    mark: Option<usize>,
    how: &str,
) {
    counts.faults += 1;
    if counts.faults <= 20 {
        println!(
            "{what}: `{line}` ({} tokens, mark {mark:?}): {how}",
            tokens.len()
        );
    }
}
