//! Frames at the limits: nests around the nesting limit, lists of 0, 1, 254 and 255 tokens,
//! lines of 0, 1, 254 and 255 bytes. Wide ones of many tokens or bytes are made by `long`.

use super::draft::Draft;
use super::vocabulary::{self, any_piece, Piece};
use crate::layout::Layout;
use crate::random::Random;
use crate::tokens::kind;

/// Lengths of a line or a list: at the limits, and in the wide layout short ones only.
fn some_length(random: &mut Random, layout: Layout) -> usize {
    random.pick(&match layout {
        Layout::Narrow => [0, 1, 254, 255, 254, 255],
        Layout::Wide => [0, 1, 0, 1, 8, 40],
    })
}

/// A frame at some limit, `limit` being that of nesting.
pub fn draft(random: &mut Random, layout: Layout, limit: usize) -> Draft {
    let kind = random.below(6);
    if kind < 3 {
        return nest(random, layout, limit);
    }
    let length = some_length(random, layout);
    match kind {
        3 => chain(random, layout, length),
        4 => tokens_of_one_byte(random, layout, length),
        _ => one_long_token(random, layout, length),
    }
}

/// How many terms are opened: mostly around the limit, seldom around the least and the greatest
/// that it may be.
fn nesting(random: &mut Random, limit: usize) -> usize {
    match random.below(8) {
        0 => random.between(1, 4),
        1 => random.between(120, 130),
        _ => random.between(limit.saturating_sub(3).max(1), limit + 3),
    }
}

/// Minus signs, tildes, pluses and groups around a term, in some operand. What the list does not
/// hold is cut off.
fn nest(random: &mut Random, layout: Layout, limit: usize) -> Draft {
    let (before, behind, nested) = nested(random, limit);
    let mut pieces: Vec<Piece> = before.iter().map(|text| word(text)).collect();
    pieces.extend(nested);
    pieces.extend(behind.iter().map(|text| word(text)));
    Draft::tight(layout, &pieces, 0)
}

/// What stands before and behind a nest, and the nest.
fn nested(random: &mut Random, limit: usize) -> (Words, Words, Vec<Piece>) {
    let openers = random.pick(&[
        &["-"][..],
        &["("],
        &["~", "-"],
        &["(", "-"],
        &["+"],
        &["(", "+"],
    ]);
    let opened: Vec<&str> = (0..nesting(random, limit))
        .map(|_| random.pick(openers))
        .collect();
    let groups = opened.iter().filter(|opener| **opener == "(").count();
    let closed = match random.below(6) {
        0 => random.below(groups + 1),
        1 => groups + 1,
        _ => groups,
    };
    let (before, behind) = surroundings(random);
    let mut pieces: Vec<Piece> = opened.iter().map(|opener| Piece::sign(opener)).collect();
    if !random.one_in(6) {
        pieces.push(vocabulary::number(random));
    }
    pieces.extend((0..closed).map(|_| Piece::sign(")")));
    (before, behind, pieces)
}

/// Nests joined by operators, in a list of up to `length` tokens.
pub fn nests(random: &mut Random, layout: Layout, limit: usize, length: usize) -> Draft {
    let mut pieces = Vec::new();
    while pieces.len() < length {
        let (_, _, nested) = nested(random, limit);
        pieces.extend(nested);
        pieces.push(vocabulary::binary_operator(random));
    }
    pieces.truncate(length);
    Draft::tight(layout, &pieces, 0)
}

/// Signs, names and numbers.
type Words = &'static [&'static str];

/// What stands before and behind a nest: nothing, or the rest of an operand of some form.
fn surroundings(random: &mut Random) -> (Words, Words) {
    random.pick(&[
        (&[][..], &[][..]),
        (&[], &[]),
        (&["#"], &[]),
        (&["("], &[",", "a0", ")"]),
        (&[], &["(", "a0", ")"]),
        (&["(", "["], &["]", ")"]),
        (&["1", "+"], &["+", "2"]),
        (&["(", "1", ")", "*"], &["-", "3"]),
        (&["2", "*"], &["-", "3"]),
    ])
}

/// The piece of a sign, a name or a number.
fn word(text: &str) -> Piece {
    match text.as_bytes()[0] {
        b'a'..=b'z' => Piece::new(kind::IDENTIFIER, text),
        b'0'..=b'9' => Piece::number(text),
        _ => Piece::sign(text),
    }
}

/// Terms or registers joined by operators, as many as the line or the list holds.
pub fn chain(random: &mut Random, layout: Layout, length: usize) -> Draft {
    let of_registers = random.one_in(3);
    let one_operator = random.one_in(2);
    let operator = vocabulary::binary_operator(random);
    let mut pieces = Vec::new();
    while pieces.len() < length {
        if of_registers {
            pieces.push(vocabulary::register(random));
            let sign = if one_operator {
                "/"
            } else {
                random.pick(&["/", "/", "-"])
            };
            pieces.push(Piece::sign(sign));
        } else {
            pieces.push(Piece::number("1"));
            let other = vocabulary::binary_operator(random);
            pieces.push(if one_operator {
                operator.clone()
            } else {
                other
            });
        }
    }
    pieces.truncate(length);
    Draft::tight(layout, &pieces, 0)
}

/// A list of tokens of at most one byte each, one sort or any, read from some place.
pub fn tokens_of_one_byte(random: &mut Random, layout: Layout, length: usize) -> Draft {
    let single = any_piece(random);
    let of_one_sort = random.one_in(2);
    let mut pieces = Vec::new();
    while pieces.len() < length {
        let piece = if of_one_sort {
            single.clone()
        } else {
            any_piece(random)
        };
        let fits = piece.text.len() < 2;
        pieces.push(if fits {
            piece
        } else {
            Piece::new(kind::ERROR, "")
        });
    }
    let last = pieces.len();
    let start = random.pick(&[0, 0, 0, 1, last / 2, last.saturating_sub(1), last]);
    Draft::tight(layout, &pieces, start.min(last))
}

/// A line of one token, which has every byte or none.
pub fn one_long_token(random: &mut Random, layout: Layout, length: usize) -> Draft {
    let kinds = [
        kind::IDENTIFIER,
        kind::LOCAL_IDENTIFIER,
        kind::NUMBER,
        kind::STRING_LITERAL,
        kind::SIZE_SUFFIX,
        kind::WHITESPACE,
        kind::COMMENT,
        kind::END_OF_LINE,
        kind::ERROR,
    ];
    let kind = match length {
        0 => random.between(kind::WHITESPACE as usize, kind::ERROR as usize) as u8,
        _ => random.pick(&kinds),
    };
    let byte = random.pick(b"019ax.' ");
    let text = String::from_utf8(vec![byte; length]).expect("ASCII");
    Draft::tight(layout, &[Piece::new(kind, &text)], 0)
}
