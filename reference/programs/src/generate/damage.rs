//! Damage to a spelled operand: one edit of its pieces.

use super::vocabulary::{any_name, any_piece, Piece};
use crate::random::Random;
use crate::tokens::kind;

/// Makes one random edit.
pub fn damage(random: &mut Random, pieces: &mut Vec<Piece>) {
    if pieces.is_empty() {
        return pieces.push(any_piece(random));
    }
    let at = random.below(pieces.len());
    let other = random.below(pieces.len());
    match random.below(9) {
        0 => pieces.truncate(at),
        1 => drop(pieces.remove(at)),
        2 => pieces.insert(at, pieces[at].clone()),
        3 => pieces.insert(at, any_piece(random)),
        4 => pieces.swap(at, other),
        5 => pieces[at] = any_name(random),
        6 => pieces[at] = any_piece(random),
        7 => other_kind(random, &mut pieces[at]),
        _ => odd_text(random, &mut pieces[at]),
    }
}

/// Gives a piece another kind that may have the same text.
fn other_kind(random: &mut Random, piece: &mut Piece) {
    piece.detail = 0;
    piece.kind = match random.below(3) {
        _ if piece.text.is_empty() => kind::ERROR,
        0 => random.below(kind::HASH as usize) as u8,
        1 => random.between(kind::WHITESPACE as usize, kind::ERROR as usize) as u8,
        _ => kind::IDENTIFIER,
    };
}

/// Gives a name, a number, a string or a suffix another text of any bytes. A number keeps its
/// first byte, which its base asks for.
fn odd_text(random: &mut Random, piece: &mut Piece) {
    if piece.kind > kind::SIZE_SUFFIX {
        return;
    }
    let kept = usize::from(piece.kind == kind::NUMBER);
    piece.text.truncate(kept);
    for _ in kept..random.between(1, 4).max(kept + 1) {
        piece.text.push(random.line_byte());
    }
}
