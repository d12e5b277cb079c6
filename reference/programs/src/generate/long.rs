//! Wide lines that a narrow frame cannot be: long names, many tokens, every limit met, one past
//! each, and lines that only a refused frame can have.

use super::draft::Draft;
use super::extremes::{chain, nests, one_long_token, tokens_of_one_byte};
use super::refused::{bad_start, damaged, foreign_byte, spoil};
use super::vocabulary::{any_piece, loose_piece, register, Piece};
use crate::layout::Layout;
use crate::lexer::tokens_of;
use crate::random::Random;
use crate::tokens::{kind, TokenRecord};

/// How many wide lines have one of up to 20,483 characters, the longest that is no refused frame.
pub const PERIOD: u64 = 300;
/// How many wide lines have one that is longer.
pub const FAR_PERIOD: u64 = 6250;
/// The kinds of long lines.
const KINDS: usize = 19;
/// The kinds of lines that are longer.
const FAR_KINDS: usize = 4;

const WIDE: Layout = Layout::Wide;
const LINE: usize = WIDE.longest_line();
const LIST: usize = WIDE.most_tokens();

/// Lengths of lists beyond 255, half of them the longest.
fn some_length(random: &mut Random) -> usize {
    match random.below(4) {
        0 => random.between(255, 257),
        1 => random.between(258, LIST - 1),
        _ => LIST,
    }
}

/// A long line of up to 20,483 characters, of the kind whose turn it is.
pub fn line(random: &mut Random, limit: usize, turn: usize) -> Vec<u8> {
    let draft = match turn % KINDS {
        0 => sum(LIST),
        1 => chain(random, WIDE, 256),
        2 => register_list(random),
        3 => falling_ranges(),
        4 => pluses(random, limit),
        5 => nests(random, WIDE, limit, LIST),
        6 => one_long_token(random, WIDE, LINE),
        7 => many_tokens(random),
        8 => far_operand(random, true),
        9 => full(random),
        10 => stretched_to_the_end(random),
        11 => long_name(turn / KINDS),
        12 => over_long_line(random, LINE + 1),
        13 => over_long_list(random, LIST + 1, false),
        14 => over_long_list(random, LIST + 1, true),
        15 => refused(random, spoil),
        16 => refused(random, bad_start),
        17 => {
            let line = some_draft(random, limit).to_line();
            return damaged(random, WIDE, line);
        }
        _ => some_draft(random, limit),
    };
    draft.to_line()
}

/// A line longer than every frame that is read, of the kind whose turn it is.
pub fn far_line(random: &mut Random, turn: usize) -> Vec<u8> {
    let most = WIDE.largest();
    match turn % FAR_KINDS {
        0 => over_long_both().to_line(),
        1 => {
            let digits = WIDE.longest_frame() + random.between(0, 40);
            [WIDE.opening(), &vec![random.pick(b"0f"); digits]].concat()
        }
        2 => {
            let length = random.between(2 * LIST, most);
            let foreign = turn / FAR_KINDS % 2 == 1;
            over_long_list(random, length, foreign).to_line()
        }
        _ => {
            let some = random.between(3 * LINE, most);
            let length = random.pick(&[most, some]);
            over_long_line(random, length).to_line()
        }
    }
}

/// A long frame that is read, of any kind.
fn some_draft(random: &mut Random, limit: usize) -> Draft {
    let length = some_length(random);
    match random.below(6) {
        0 => chain(random, WIDE, length),
        1 => tokens_of_one_byte(random, WIDE, length),
        2 => one_long_token(random, WIDE, 4 * length),
        3 => nests(random, WIDE, limit, length),
        4 => {
            let marked = random.one_in(2);
            far_operand(random, marked)
        }
        _ => stretched_to_the_end(random),
    }
}

/// `1+1+1`: as many nodes as tokens.
fn sum(length: usize) -> Draft {
    let signs = [Piece::number("1"), Piece::sign("+")];
    let pieces: Vec<Piece> = signs.iter().cycle().take(length).cloned().collect();
    Draft::tight(WIDE, &pieces, 0)
}

/// A list of registers, singles and ranges, that fall or not.
fn register_list(random: &mut Random) -> Draft {
    let mut pieces = Vec::new();
    while pieces.len() < LIST {
        pieces.push(register(random));
        if random.one_in(2) {
            pieces.push(Piece::sign("-"));
            pieces.push(register(random));
        }
        pieces.push(Piece::sign("/"));
    }
    pieces.truncate(LIST);
    Draft::tight(WIDE, &pieces, 0)
}

/// `a0-d0/a0-d0`: an item and a diagnostic for each range, more than a byte counts.
fn falling_ranges() -> Draft {
    let name = |text| Piece::new(kind::IDENTIFIER, text);
    let range = [name("a0"), Piece::sign("-"), name("d0"), Piece::sign("/")];
    let pieces: Vec<Piece> = range.iter().cycle().take(LIST).cloned().collect();
    Draft::tight(WIDE, &pieces, 0)
}

/// `1+++1+++1`, with a diagnostic for each plus but the first of a row: with rows as long as the
/// nesting limit allows, nearly one for each token.
fn pluses(random: &mut Random, limit: usize) -> Draft {
    let row = random
        .pick(&[2, limit.saturating_sub(1), limit, limit + 1])
        .max(2);
    let mut sides = vec![Piece::sign("+"); row + 1];
    sides[0] = Piece::number("1");
    let mut pieces: Vec<Piece> = sides.iter().cycle().take(LIST).cloned().collect();
    if random.one_in(2) {
        pieces[random.pick(&[LIST - 1, LIST - 3, LIST / 2])] = any_piece(random);
    }
    Draft::tight(WIDE, &pieces, 0)
}

/// The longest list, of tokens of one byte or none, read from a place beyond 255.
fn many_tokens(random: &mut Random) -> Draft {
    let mut draft = tokens_of_one_byte(random, WIDE, LIST);
    draft.start = random.pick(&[256, LIST / 2, LIST - 1, LIST]);
    draft
}

/// An operand behind hundreds of tokens, from which it is read, maybe with a mark on a name.
fn far_operand(random: &mut Random, marked: bool) -> Draft {
    let count = random.between(256, LIST - 60);
    let mut pieces: Vec<Piece> = (0..count).map(|_| loose_piece(random)).collect();
    for piece in &mut pieces {
        piece.text.truncate(2);
    }
    let (mut operand, place) = super::operand_pieces(random);
    let at = random.below(operand.len() + 1);
    let suppressed = random.pick(&["zd0", "za1", "zpc", "zsp"]);
    operand.insert(at, Piece::new(kind::IDENTIFIER, suppressed));
    pieces.append(&mut operand);
    let mut draft = Draft::tight(WIDE, &pieces, count + place);
    if marked {
        draft.mark = count + at;
    }
    draft.start = draft.start.min(draft.tokens.len());
    draft
}

/// The longest line under the longest list: each token has some bytes or none, the last ends where
/// the line ends, and one or more empty ones may stand there.
fn full(random: &mut Random) -> Draft {
    let mut draft = Draft::tight(WIDE, &[], 0);
    draft.line = vec![b'1'; LINE];
    let empty = random.pick(&[0, 1, LIST - 1]);
    let counted = LIST - empty;
    for place in 0..counted {
        let [start, end] = [place, place + 1].map(|one| one * LINE / counted);
        let kind = random.pick(&[kind::NUMBER, kind::IDENTIFIER, kind::ERROR]);
        draft.tokens.push(TokenRecord::new(kind, 0, start, end));
    }
    let at_the_end = TokenRecord::new(kind::END_OF_LINE, 0, LINE, LINE);
    draft.tokens.extend(vec![at_the_end; empty]);
    draft.start = random.pick(&[0, 1, LIST - 2, LIST - 1, LIST]);
    draft
}

/// An operand with a text so long that the line is the longest, the end of the line behind it.
fn stretched_to_the_end(random: &mut Random) -> Draft {
    let (mut pieces, start) = super::operand_pieces(random);
    pieces.insert(start, Piece::new(kind::IDENTIFIER, "name"));
    let place = match random.below(2) {
        0 => start,
        _ => random.below(pieces.len()),
    };
    let length: usize = pieces.iter().map(|piece| piece.text.len()).sum();
    stretch(random, &mut pieces[place], LINE.saturating_sub(length));
    pieces.push(Piece::end_of_line());
    Draft::tight(WIDE, &pieces, start)
}

/// An operand of some form, whose name is so long that it ends where the longest line does. The
/// second of them lacks its last parenthesis.
fn long_name(turn: usize) -> Draft {
    let texts = [
        ("(", ",a0,d1.w*4)"),
        ("", "(a0"),
        ("", "(a0)"),
        ("", ""),
        ("#", ""),
        ("", ".w"),
        ("1+", ""),
        ("([", ",pc],d0,8)"),
        ("([4,a0],", ")"),
    ];
    let (before, behind) = texts[turn % texts.len()];
    let length = LINE - before.len() - behind.len();
    let text = [before, &"n".repeat(length), behind].concat();
    let mut draft = Draft::tight(WIDE, &[], 0);
    draft.tokens = tokens_of(WIDE, text.as_bytes(), false).expect("a text for the lexer");
    draft.line = text.into_bytes();
    draft
}

/// A frame whose line is too long. Whatever else is wrong with it, that is said.
fn over_long_line(random: &mut Random, length: usize) -> Draft {
    let mut draft = Draft::tight(WIDE, &[Piece::number("1")], 0);
    draft.line = vec![random.line_byte(); length];
    if random.one_in(2) {
        foreign_byte(random, &mut draft);
    }
    draft
}

/// A frame whose list is too long, with or without a foreign byte, which is said before it.
fn over_long_list(random: &mut Random, length: usize, foreign: bool) -> Draft {
    let mut draft = Draft::tight(WIDE, &[Piece::number("1")], 0);
    let token = TokenRecord::new(random.pick(&[kind::COMMENT, 200]), 0, 1, 1);
    draft.tokens = vec![token; length];
    draft.start = random.pick(&[0, length, WIDE.largest()]);
    if foreign {
        foreign_byte(random, &mut draft);
    }
    draft
}

/// The longest line that is a frame: both counts are the largest.
fn over_long_both() -> Draft {
    let most = WIDE.largest();
    let mut draft = Draft::tight(WIDE, &[], 0);
    draft.line = vec![b'1'; most];
    draft.tokens = vec![TokenRecord::new(kind::COMMENT, 0, most, most); most];
    draft
}

/// A long list with faults, at any of its places.
fn refused(random: &mut Random, spoil: fn(&mut Random, &mut Draft)) -> Draft {
    let length = some_length(random);
    let mut draft = match random.below(3) {
        0 => sum(length),
        1 => chain(random, WIDE, length),
        _ => far_operand(random, false),
    };
    spoil(random, &mut draft);
    draft
}

/// An operand with offsets beyond 255: a long token before it, a long text in it, or both. Now and
/// then one token alone, where a narrow line ends.
pub fn stretched(random: &mut Random) -> Draft {
    if random.one_in(8) {
        let length = random.between(255, 257);
        return one_long_token(random, WIDE, length);
    }
    let (mut pieces, mut start) = super::operand_pieces(random);
    let which = random.below(4);
    if which > 0 && !pieces.is_empty() {
        let (place, length) = (random.below(pieces.len()), random.between(200, 400));
        stretch(random, &mut pieces[place], length);
    }
    if which < 2 {
        let mut before = loose_piece(random);
        let length = random.between(200, 300);
        stretch(random, &mut before, length);
        pieces.insert(0, before);
        start += 1;
    }
    Draft::lay_out(random, WIDE, &pieces, start)
}

/// Makes a piece's text longer by so many bytes, if its kind allows it.
fn stretch(random: &mut Random, piece: &mut Piece, length: usize) {
    let byte = match piece.kind {
        kind::IDENTIFIER | kind::LOCAL_IDENTIFIER => random.pick(b"aZ_0"),
        kind::NUMBER => random.pick(b"01"),
        kind::STRING_LITERAL | kind::SIZE_SUFFIX => random.pick(b"aw' "),
        kind::WHITESPACE..=kind::ERROR => random.line_byte(),
        _ => return,
    };
    // Zeros behind a number's prefix leave its value, digits elsewhere make it too large.
    let at = match random.below(2) {
        0 => piece.text.len().min(1),
        _ => piece.text.len(),
    };
    piece.text.splice(at..at, vec![byte; length]);
}
