//! Tokens as pieces of text with a kind, and the texts that matter to the reader.

use crate::random::Random;
use crate::tokens::{kind, sign};

/// A token before it has a place in a line.
#[derive(Debug, Clone)]
pub struct Piece {
    /// Its kind.
    pub kind: u8,
    /// Its detail.
    pub detail: u8,
    /// Its text.
    pub text: Vec<u8>,
}

impl Piece {
    /// A piece of a kind without detail.
    pub fn new(kind: u8, text: &str) -> Self {
        Self::detailed(kind, 0, text)
    }

    /// A number or a string.
    pub fn detailed(kind: u8, detail: u8, text: &str) -> Self {
        let text = text.as_bytes().to_vec();
        Piece { kind, detail, text }
    }

    /// A sign, by its spelling.
    pub fn sign(spelling: &str) -> Self {
        let signs = kind::HASH..=kind::SHIFT_RIGHT;
        let mut found = signs.filter(|kind| sign(*kind) == Some(spelling));
        Self::new(found.next().expect("a sign"), spelling)
    }

    /// A number in the base that its first character asks for.
    pub fn number(text: &str) -> Self {
        let base = match text.as_bytes()[0] {
            b'$' => 1,
            b'%' => 2,
            b'@' => 3,
            _ => 0,
        };
        Self::detailed(kind::NUMBER, base, text)
    }

    /// The end of the line, which has no text.
    pub fn end_of_line() -> Self {
        Self::new(kind::END_OF_LINE, "")
    }
}

const DATA: [&str; 8] = ["d0", "d1", "d2", "d3", "d4", "d5", "d6", "d7"];
const ADDRESS: [&str; 9] = ["a0", "a1", "a2", "a3", "a4", "a5", "a6", "a7", "sp"];
const SUPPRESSED_DATA: [&str; 3] = ["zd0", "zd3", "zd7"];
const SUPPRESSED_ADDRESS: [&str; 4] = ["za0", "za5", "za7", "zsp"];
const SPECIAL: [&str; 10] = [
    "sr", "ccr", "usp", "sfc", "dfc", "vbr", "cacr", "caar", "msp", "isp",
];
/// Symbols, among them names that nearly are a register's.
const SYMBOLS: [&str; 14] = [
    "x", "name", "loop_1", "_", "d8", "a", "d", "sp1", "pcx", "zd8", "z", "zz", "a00", "zsr",
];
const LOCALS: [&str; 5] = [".loop", ".x", ".d0", "d0", "zpc"];
const SMALL_NUMBERS: [&str; 12] = [
    "0", "1", "2", "4", "8", "10", "640", "$10", "$fF", "%101", "@17", "32767",
];
/// Numbers around the 64-bit limit, and texts whose digits are wrong or missing.
const ODD_NUMBERS: [&str; 24] = [
    "9223372036854775807",
    "9223372036854775808",
    "18446744073709551616",
    "99999999999999999999999999999999",
    "$7fffffffffffffff",
    "$8000000000000000",
    "$ffffffffffffffff",
    "%111111111111111111111111111111111111111111111111111111111111111",
    "%1000000000000000000000000000000000000000000000000000000000000000",
    "@777777777777777777777",
    "@1000000000000000000000",
    "$",
    "%",
    "@",
    "12a",
    "$1g",
    "%102",
    "@18",
    "1_0",
    "x",
    "$$",
    "0000000000000000000000000000000000000001",
    "9223372036854775808x",
    "99999999999999999999z",
];
const SCALES: [&str; 20] = [
    "1",
    "2",
    "4",
    "8",
    "1",
    "2",
    "4",
    "8",
    "$4",
    "%10",
    "@10",
    "$8",
    "0",
    "3",
    "5",
    "16",
    "08",
    "4x",
    "$",
    "99999999999999999999",
];
const SIZES: [&str; 8] = [".b", ".w", ".l", ".s", ".B", ".W", ".L", ".S"];
const ODD_SIZES: [&str; 10] = [
    ".q", ".", ".length", ".ww", "xw", "l", " w", ".1", "._", "..",
];
const STRINGS: [&str; 10] = [
    "'A'", "'AB'", "'it''s'", "''", "'", "'open", "xyzx", "aa", "a", "'a'b'",
];
const DOUBLE_STRINGS: [&str; 4] = ["\"A\"", "\"a\"\"b\"", "\"\"", "\"open"];
/// What stands under a token that has no spelling of its own.
const LOOSE: [&str; 6] = ["", " ", "?", "  ", ";note", "=a0"];
const BINARY: [&str; 11] = ["+", "-", "*", "/", "\\", "&", "!", "|", "^", "<<", ">>"];

/// A name, now and then with other letter case.
fn identifier(random: &mut Random, names: &[&str]) -> Piece {
    let mut piece = Piece::new(kind::IDENTIFIER, random.pick(names));
    if random.one_in(6) {
        for byte in &mut piece.text {
            if random.one_in(2) {
                byte.make_ascii_uppercase();
            }
        }
    }
    piece
}

pub fn data_register(random: &mut Random) -> Piece {
    identifier(random, &DATA)
}

pub fn address_register(random: &mut Random) -> Piece {
    identifier(random, &ADDRESS)
}

pub fn register(random: &mut Random) -> Piece {
    match random.below(2) {
        0 => data_register(random),
        _ => address_register(random),
    }
}

pub fn suppressed_data(random: &mut Random) -> Piece {
    identifier(random, &SUPPRESSED_DATA)
}

pub fn suppressed_address(random: &mut Random) -> Piece {
    identifier(random, &SUPPRESSED_ADDRESS)
}

pub fn program_counter(random: &mut Random) -> Piece {
    identifier(random, &["pc"])
}

pub fn suppressed_program_counter(random: &mut Random) -> Piece {
    identifier(random, &["zpc"])
}

pub fn special_register(random: &mut Random) -> Piece {
    identifier(random, &SPECIAL)
}

pub fn symbol(random: &mut Random) -> Piece {
    match random.below(8) {
        0 => Piece::new(kind::LOCAL_IDENTIFIER, random.pick(&LOCALS)),
        _ => identifier(random, &SYMBOLS),
    }
}

pub fn number(random: &mut Random) -> Piece {
    match random.below(12) {
        0 => Piece::number(random.pick(&ODD_NUMBERS)),
        1 => Piece::number(&random.below(100_000).to_string()),
        _ => Piece::number(random.pick(&SMALL_NUMBERS)),
    }
}

pub fn scale(random: &mut Random) -> Piece {
    Piece::number(random.pick(&SCALES))
}

pub fn string(random: &mut Random) -> Piece {
    match random.below(2) {
        0 => Piece::detailed(kind::STRING_LITERAL, 0, random.pick(&STRINGS)),
        _ => Piece::detailed(kind::STRING_LITERAL, 1, random.pick(&DOUBLE_STRINGS)),
    }
}

pub fn size_suffix(random: &mut Random) -> Piece {
    match random.below(8) {
        0 => Piece::new(kind::SIZE_SUFFIX, random.pick(&ODD_SIZES)),
        _ => Piece::new(kind::SIZE_SUFFIX, random.pick(&SIZES)),
    }
}

pub fn binary_operator(random: &mut Random) -> Piece {
    Piece::sign(random.pick(&BINARY))
}

/// A name of any sort.
pub fn any_name(random: &mut Random) -> Piece {
    match random.below(9) {
        0 | 1 => data_register(random),
        2 | 3 => address_register(random),
        4 => suppressed_data(random),
        5 => suppressed_address(random),
        6 => program_counter(random),
        7 => suppressed_program_counter(random),
        _ => special_register(random),
    }
}

/// A token of any kind.
pub fn any_piece(random: &mut Random) -> Piece {
    match random.below(10) {
        0 => any_name(random),
        1 => symbol(random),
        2 => number(random),
        3 => string(random),
        4 => size_suffix(random),
        5 => loose_piece(random),
        _ => {
            let kind = random.between(kind::HASH as usize, kind::SHIFT_RIGHT as usize) as u8;
            Piece::new(kind, sign(kind).expect("a sign"))
        }
    }
}

/// A Whitespace, Comment, EndOfLine or Error token, which may be empty.
pub fn loose_piece(random: &mut Random) -> Piece {
    let kind = random.between(kind::WHITESPACE as usize, kind::ERROR as usize) as u8;
    Piece::new(kind, random.pick(&LOOSE))
}
