//! Near-grammatical operands of every form of document 01's table.
//!
//! Each method writes one part of a form. Now and then a part is left out, or another token
//! stands in its place, so that every fault the reader can name comes up.

use super::vocabulary::*;
use crate::random::Random;

/// How seldom a part is spelled wrongly.
const MISTAKE: usize = 40;

/// Writes the pieces of an operand.
pub struct Writer<'r> {
    random: &'r mut Random,
    /// What has been written.
    pub pieces: Vec<Piece>,
}

impl<'r> Writer<'r> {
    /// A writer that has written nothing.
    pub fn new(random: &'r mut Random) -> Self {
        let pieces = Vec::new();
        Self { random, pieces }
    }

    /// Adds a piece, or now and then another one or none.
    fn put(&mut self, piece: Piece) {
        if !self.random.one_in(MISTAKE) {
            return self.pieces.push(piece);
        }
        match self.random.below(4) {
            0 => {}
            1 => self.pieces.push(any_name(self.random)),
            2 => self.pieces.push(loose_piece(self.random)),
            _ => self.pieces.push(any_piece(self.random)),
        }
    }

    fn sign(&mut self, spelling: &str) {
        self.put(Piece::sign(spelling));
    }

    fn word(&mut self, word: fn(&mut Random) -> Piece) {
        let piece = word(self.random);
        self.put(piece);
    }

    /// True once in `count` times.
    fn one_in(&mut self, count: usize) -> bool {
        self.random.one_in(count)
    }

    /// An operand of any form.
    pub fn operand(&mut self) {
        match self.random.below(20) {
            0 | 1 => self.immediate(),
            2 => self.word(register),
            3 => self.word(special_register),
            4 | 5 => self.indirect(),
            6..=9 => self.displaced(),
            10..=12 => self.full_index(),
            13..=15 => self.memory_indirect(),
            16 | 17 => self.absolute(),
            18 => self.register_list(),
            _ => self.word(any_name),
        }
    }

    /// Form 1.
    fn immediate(&mut self) {
        self.sign("#");
        self.expression(3);
        if self.one_in(4) {
            self.word(size_suffix);
        }
    }

    /// Forms 5 to 7.
    fn indirect(&mut self) {
        let form = self.random.below(3);
        if form == 2 {
            self.sign("-");
        }
        self.sign("(");
        self.base_of_indirect();
        self.sign(")");
        if form == 1 {
            self.sign("+");
        }
    }

    /// An address register, seldom another one.
    fn base_of_indirect(&mut self) {
        match self.random.below(12) {
            0 => self.word(data_register),
            1 => self.word(any_name),
            _ => self.word(address_register),
        }
    }

    /// Forms 8 to 11, with the displacement before or behind the parenthesis, or without one.
    fn displaced(&mut self) {
        let inside = self.one_in(2);
        let without = self.one_in(6);
        if !inside && !without {
            self.displacement();
        }
        self.sign("(");
        if inside && !without {
            self.expression(2);
            self.sign(",");
        }
        match self.random.below(12) {
            0 => self.word(any_name),
            1..=3 => self.word(program_counter),
            _ => self.word(address_register),
        }
        if self.one_in(2) {
            self.sign(",");
            self.index();
        }
        self.sign(")");
    }

    /// A displacement before a parenthesis: an expression, often one group.
    fn displacement(&mut self) {
        if self.one_in(3) {
            return self.group(2);
        }
        self.expression(2);
    }

    /// An index register with its size and scale.
    fn index(&mut self) {
        match self.random.below(6) {
            0 => self.word(suppressed_data),
            1 => self.word(suppressed_address),
            _ => self.word(register),
        }
        if self.one_in(3) {
            self.word(size_suffix);
        }
        if self.one_in(3) {
            self.sign("*");
            self.word(scale);
        }
    }

    /// Form 12 without brackets.
    fn full_index(&mut self) {
        self.sign("(");
        if self.one_in(2) {
            self.sized_expression();
            self.sign(",");
        }
        self.base_and_index();
        self.sign(")");
    }

    /// A base, an index, or both.
    fn base_and_index(&mut self) {
        match self.random.below(8) {
            0 => self.index(),
            1 | 2 => self.base(),
            _ => {
                self.base();
                self.sign(",");
                self.index();
            }
        }
    }

    /// A base of form 12.
    fn base(&mut self) {
        match self.random.below(4) {
            0 => self.word(address_register),
            1 => self.word(program_counter),
            2 => self.word(suppressed_address),
            _ => self.word(suppressed_program_counter),
        }
    }

    /// An expression, often with a size.
    fn sized_expression(&mut self) {
        self.expression(2);
        if self.one_in(2) {
            self.word(size_suffix);
        }
    }

    /// Form 12 with brackets: `([I]T)`.
    fn memory_indirect(&mut self) {
        self.sign("(");
        self.sign("[");
        let displaced = self.one_in(2);
        let registers = self.one_in(2);
        if displaced {
            self.sized_expression();
        }
        if displaced && registers {
            self.sign(",");
        }
        if registers {
            self.base_and_index();
        }
        self.sign("]");
        if self.one_in(2) {
            self.sign(",");
            self.index();
        }
        if self.one_in(2) {
            self.sign(",");
            self.sized_expression();
        }
        self.sign(")");
    }

    /// Form 13, and what looks like it.
    fn absolute(&mut self) {
        if self.one_in(3) {
            self.group(2);
            if self.one_in(2) {
                self.word(binary_operator);
                self.expression(1);
            }
        } else {
            self.expression(3);
        }
        if self.one_in(3) {
            self.word(size_suffix);
        }
    }

    /// Form 14.
    fn register_list(&mut self) {
        for item in 0..self.random.between(1, 5) {
            if item > 0 {
                self.sign("/");
            }
            self.word(register);
            if self.one_in(2) {
                self.sign("-");
                self.word(register);
            }
        }
    }

    /// An expression of some terms, with groups nested at most `depth` deep.
    fn expression(&mut self, depth: usize) {
        self.term(depth);
        for _ in 0..self.random.pick(&[0, 0, 0, 1, 1, 2, 4]) {
            self.word(binary_operator);
            self.term(depth);
        }
    }

    fn term(&mut self, depth: usize) {
        match self.random.below(16) {
            0 | 1 => self.sign("-"),
            2 => self.sign("~"),
            3 => self.sign("+"),
            _ => {}
        }
        match self.random.below(16) {
            0 => self.sign("*"),
            1 => self.word(string),
            2 => self.word(any_name),
            3..=5 => self.word(symbol),
            6..=9 if depth > 0 => self.group(depth - 1),
            10 => self.term(depth.saturating_sub(1)),
            _ => self.word(number),
        }
    }

    fn group(&mut self, depth: usize) {
        self.sign("(");
        self.expression(depth);
        self.sign(")");
    }
}
