//! Frames that are refused, and lines that are no frames.

use super::draft::Draft;
use crate::layout::{Layout, WIDE_LETTER};
use crate::random::Random;
use crate::tokens::{details, kind, sign, TokenFault};

/// A frame with a fault or two.
pub fn refused_frame(random: &mut Random, layout: Layout) -> Draft {
    let mut draft = super::operand(random, layout);
    spoil(random, &mut draft);
    draft
}

/// Puts a fault or two into a frame. One that finds no place in it is left out.
pub fn spoil(random: &mut Random, draft: &mut Draft) {
    for _ in 0..random.pick(&[1, 1, 1, 2]) {
        match random.below(8) {
            0 => foreign_byte(random, draft),
            1 => bad_start(random, draft),
            _ => bad_token(random, draft),
        }
    }
}

/// Puts a byte outside 20 to 7E into the line.
pub fn foreign_byte(random: &mut Random, draft: &mut Draft) {
    if !draft.line.is_empty() {
        let at = random.below(draft.line.len());
        draft.line[at] = random.pick(&[0, 9, 10, 13, 0x1f, 0x7f, 0x80, 0xff]);
    }
}

/// Puts the start past the token count.
pub fn bad_start(random: &mut Random, draft: &mut Draft) {
    let (count, largest) = (draft.tokens.len(), draft.layout.largest());
    if count < largest {
        let start = [count + 1, largest, random.between(count + 1, largest)];
        draft.start = random.pick(&start);
    }
}

/// Spoils a token in one of the ways that make it bad.
fn bad_token(random: &mut Random, draft: &mut Draft) {
    if draft.tokens.is_empty() {
        return;
    }
    let fault = random.pick(&TokenFault::ALL);
    let place = fitting_place(random, draft, fault);
    let before = place.checked_sub(1).map(|before| draft.tokens[before]);
    let previous_end = before.map_or(0, |token| token.end);
    let (length, largest) = (draft.line.len(), draft.layout.largest());
    let token = &mut draft.tokens[place];
    match fault {
        TokenFault::Kind => token.kind = random.pick(&[30, 31, 64, 128, 255]),
        TokenFault::Detail => token.detail = random.pick(&[details(token.kind), 4, 128, 255]),
        TokenFault::Backwards => token.start = (token.end + 1).min(largest),
        TokenFault::PastLine if length < largest => token.end = random.pick(&[length + 1, largest]),
        TokenFault::PastLine => {}
        TokenFault::Overlap => token.start = previous_end.saturating_sub(1),
        TokenFault::NoPrefix => token.detail = random.between(1, 3) as u8,
        TokenFault::Empty => token.end = token.start,
        TokenFault::Spelling => {
            let signs = kind::HASH as usize..=kind::SHIFT_RIGHT as usize;
            token.kind = random.between(*signs.start(), *signs.end()) as u8
        }
    }
}

/// A place whose token can have the fault, if a few tries find one.
fn fitting_place(random: &mut Random, draft: &Draft, fault: TokenFault) -> usize {
    let fits = |kind: u8| match fault {
        TokenFault::NoPrefix => kind == kind::NUMBER,
        TokenFault::Empty => kind <= kind::SIZE_SUFFIX,
        TokenFault::Spelling => sign(kind).is_some(),
        _ => true,
    };
    let count = draft.tokens.len();
    let tries: Vec<usize> = (0..6).map(|_| random.below(count)).collect();
    let found = tries.iter().find(|place| fits(draft.tokens[**place].kind));
    *found.unwrap_or(&tries[0])
}

/// A line that is no frame, of every kind: refusal 8.
pub fn bad_line(random: &mut Random, layout: Layout) -> Vec<u8> {
    let line = super::operand(random, layout).to_line();
    damaged(random, layout, line)
}

/// A frame's line, damaged so that it is no frame; seldom it is one still.
pub fn damaged(random: &mut Random, layout: Layout, mut line: Vec<u8>) -> Vec<u8> {
    let at = random.below(line.len());
    match random.below(10) {
        0 => line.clear(),
        1 => line[at] = random.pick(b"ABCDEF"),
        2 => line[at] = random.pick(b"gG:/`@ \t\r\0x\x7f\x80\xff"),
        3 => line.push(b'\r'),
        4 => drop(line.remove(at)),
        5 => line.truncate(at),
        6 => line.insert(0, random.pick(b" 0w")),
        7 => line.extend(random.pick(&[&b"00"[..], b"ff", b"0", b" ", b"0000"])),
        8 => wrong_count(random, layout, &mut line),
        _ => match layout {
            Layout::Narrow => line = over_long(random),
            Layout::Wide => wrong_letter(random, &mut line),
        },
    }
    line
}

/// Changes the line's length, so that the counts give another length.
fn wrong_count(random: &mut Random, layout: Layout, line: &mut [u8]) {
    let count = random.pick(&[[0, 0], [1, 0], [255, 255]]);
    let digits = crate::hex::encode(&count[..layout.number_bytes()]);
    let from = layout.opening().len();
    line[from..from + digits.len()].copy_from_slice(&digits);
}

/// Puts the `w` of a wide frame's line elsewhere, or another character in its place.
fn wrong_letter(random: &mut Random, line: &mut Vec<u8>) {
    let at = random.between(1, line.len());
    match random.below(6) {
        0 => line.truncate(1),
        1 => line[0] = b'W',
        2 => drop(line.remove(0)),
        3 => line.insert(at, WIDE_LETTER),
        4 => {
            line.remove(0);
            line.insert(at - 1, WIDE_LETTER);
        }
        _ => line[0] = random.line_byte(),
    }
}

/// A line longer than any narrow frame.
fn over_long(random: &mut Random) -> Vec<u8> {
    let length = match random.below(20) {
        0 => 100_000,
        _ => Layout::Narrow.longest_frame() + random.between(1, 40),
    };
    vec![random.pick(b"0f x\0"); length]
}
