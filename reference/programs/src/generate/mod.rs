//! Frames by seed and number, the same on every machine.
//!
//! Most frames hold an operand that is nearly grammatical (`spelling`, over `vocabulary`), often
//! damaged (`damage`), laid out in a line with gaps (`draft`), with tokens before and behind it.
//! Some go to the limits of nesting, lists and lines (`extremes`); some are refused (`refused`).
//! One in four is wide; of these a few are as long as a narrow one cannot be (`long`).

mod damage;
mod draft;
mod extremes;
mod long;
mod refused;
mod spelling;
mod vocabulary;

use crate::layout::Layout;
use crate::random::Random;
use crate::refusal::LIMIT_PROGRAM;
use damage::damage;
use draft::Draft;
use spelling::Writer;
use vocabulary::{any_piece, Piece};

/// How many lines of both layouts have one wide one.
const WIDE: u64 = 4;
/// What sets the choice of the layouts apart from the frames' own numbers.
const LAYOUTS: u64 = 0x6c61_796f_7574_7321;

/// Makes the lines of a seed.
#[derive(Debug, Clone, Copy)]
pub struct Generator {
    /// The seed.
    pub seed: u64,
    /// The nesting limit around which nests lie.
    pub limit: usize,
    /// The only layout of the lines; both are mixed without it.
    pub layout: Option<Layout>,
}

impl Generator {
    /// Both layouts, with nests around the program's limit.
    pub fn new(seed: u64) -> Self {
        Self {
            seed,
            limit: LIMIT_PROGRAM,
            layout: None,
        }
    }

    /// Line `number` of the input, without its line feed. A narrow one is the same with wide ones
    /// around it and without.
    pub fn line(&self, number: u64) -> Vec<u8> {
        let mut random = Random::new(self.seed, number);
        if let Some(line) = self.long_line(&mut random, number) {
            return line;
        }
        let layout = self.layout_at(number);
        match random.below(40) {
            0 => refused::bad_line(&mut random, layout),
            1..=3 => refused::refused_frame(&mut random, layout).to_line(),
            4..=6 => extremes::draft(&mut random, layout, self.limit).to_line(),
            7 => any_tokens(&mut random, layout).to_line(),
            8 | 9 if layout == Layout::Wide => long::stretched(&mut random).to_line(),
            _ => operand(&mut random, layout).to_line(),
        }
    }

    fn layout_at(&self, number: u64) -> Layout {
        let mut random = Random::new(self.seed ^ LAYOUTS, number);
        let drawn = match random.one_in(WIDE as usize) {
            true => Layout::Wide,
            false => Layout::Narrow,
        };
        self.layout.unwrap_or(drawn)
    }

    /// A long wide line, if it is the turn of one. Their kinds take turns too, so that a run of
    /// some 20,000 lines has each, and no run has many.
    fn long_line(&self, random: &mut Random, number: u64) -> Option<Vec<u8>> {
        let every = match self.layout {
            Some(Layout::Narrow) => return None,
            Some(Layout::Wide) => 1,
            None => WIDE,
        };
        let turn = |period: u64| {
            // Not among the first lines, which people look at.
            let at_turn = number % period == self.seed.wrapping_add(period / 2) % period;
            at_turn.then_some((number / period) as usize)
        };
        if let Some(turn) = turn(every * long::FAR_PERIOD) {
            return Some(long::far_line(random, turn));
        }
        turn(every * long::PERIOD).map(|turn| long::line(random, self.limit, turn))
    }
}

/// Line `number` of the input that belongs to `seed`, without its line feed.
pub fn input_line(seed: u64, number: u64) -> Vec<u8> {
    Generator::new(seed).line(number)
}

/// The same with nests around another nesting limit.
pub fn input_line_at(seed: u64, number: u64, limit: usize) -> Vec<u8> {
    let generator = Generator::new(seed);
    Generator { limit, ..generator }.line(number)
}

/// A frame with a spelled operand, whole or damaged.
fn operand(random: &mut Random, layout: Layout) -> Draft {
    let (pieces, start) = operand_pieces(random);
    Draft::lay_out(random, layout, &pieces, start)
}

/// A spelled operand, whole or damaged, with what stands before and behind it, and its place.
fn operand_pieces(random: &mut Random) -> (Vec<Piece>, usize) {
    let mut pieces = before(random);
    let start = pieces.len();
    let mut spelled = spell(random);
    for _ in 0..random.pick(&[0, 0, 0, 1, 1, 2, 3]) {
        damage(random, &mut spelled);
    }
    pieces.append(&mut spelled);
    pieces.append(&mut behind(random));
    (pieces, start)
}

/// A frame with any tokens in any order.
fn any_tokens(random: &mut Random, layout: Layout) -> Draft {
    let count = random.below(12);
    let pieces: Vec<Piece> = (0..count).map(|_| any_piece(random)).collect();
    Draft::lay_out(random, layout, &pieces, 0)
}

/// The pieces of one operand.
fn spell(random: &mut Random) -> Vec<Piece> {
    let mut writer = Writer::new(random);
    writer.operand();
    writer.pieces
}

/// What stands before the start: mostly nothing, else an operand or any tokens.
fn before(random: &mut Random) -> Vec<Piece> {
    match random.below(10) {
        0 => spell(random),
        1 => (0..random.between(1, 4))
            .map(|_| any_piece(random))
            .collect(),
        _ => Vec::new(),
    }
}

/// What stands behind the operand: nothing, what may end an operand, or any tokens.
fn behind(random: &mut Random) -> Vec<Piece> {
    match random.below(12) {
        0 => vec![Piece::end_of_line()],
        1 | 2 => {
            let mut pieces = vec![Piece::sign(",")];
            pieces.append(&mut spell(random));
            pieces
        }
        3 => vec![Piece::sign(","), Piece::end_of_line()],
        4 => vec![any_piece(random)],
        5 => vec![any_piece(random), any_piece(random)],
        _ => Vec::new(),
    }
}

#[cfg(test)]
mod tests {
    use super::*;

    fn lines(seed: u64, layout: Option<Layout>, count: u64) -> impl Iterator<Item = Vec<u8>> {
        let generator = Generator {
            layout,
            ..Generator::new(seed)
        };
        (0..count).map(move |number| generator.line(number))
    }

    #[test]
    fn the_same_seed_gives_the_same_lines() {
        for number in 0..2000 {
            assert_eq!(input_line(3, number), input_line(3, number));
        }
    }

    #[test]
    fn no_line_holds_a_line_feed() {
        for line in lines(5, None, 20_000) {
            assert!(!line.contains(&b'\n'));
        }
    }

    #[test]
    fn both_layouts_hold_the_narrow_lines() {
        let both: Vec<Vec<u8>> = lines(7, None, 4000).collect();
        let narrow: Vec<Vec<u8>> = lines(7, Some(Layout::Narrow), 4000).collect();
        let same = both.iter().zip(&narrow).filter(|(a, b)| a == b).count();
        assert!((2900..3100).contains(&same), "{same}");
    }

    #[test]
    fn long_lines_are_seldom() {
        let lengths: Vec<usize> = lines(1, None, 100_000).map(|line| line.len()).collect();
        let over = |length: usize| lengths.iter().filter(|one| **one > length).count();
        let narrow = Layout::Narrow.longest_frame() + 40;
        assert!((60..250).contains(&over(narrow)), "{}", over(narrow));
        assert!((3..30).contains(&over(100_000)), "{}", over(100_000));
        assert!(lengths.iter().sum::<usize>() < 30_000_000);
    }
}
