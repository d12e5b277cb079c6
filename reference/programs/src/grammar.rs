//! Document 01's table of spellings as a recogniser of its own: every reading that the table allows.
//!
//! Each function gives all ends with what stands up to there; nothing here looks at the parser.

use s68k::assembler::ast::*;
use s68k::assembler::source::Span;
use s68k::assembler::token::{parse_digits, string_literal_bytes, NumberBase, Token, TokenKind};

/// All ends, with what stands up to there.
pub type Ends<T> = Vec<(usize, T)>;

/// A list of tokens in which an operand may be spelled from `own` on.
pub struct Grammar<'a> {
    /// The line that the tokens lie in.
    pub line: &'a str,
    /// The tokens.
    pub tokens: &'a [Token],
    /// The operand's first place.
    pub own: usize,
    /// The place whose name is no Z.
    pub mark: Option<usize>,
    /// How many terms may be open.
    pub limit: usize,
    /// Whether an expression may have a name that spells Z.
    pub suppressed_symbols: bool,
}

/// The registers of BI.
type Both = (BaseRegister, Option<IndexRegister>);

fn join(from: Span, to: Span) -> Span {
    Span::new(from.start, to.end)
}

impl Grammar<'_> {
    fn kind(&self, i: usize) -> Option<TokenKind> {
        self.tokens.get(i).map(|token| token.kind)
    }

    fn span(&self, i: usize) -> Span {
        self.tokens[i].span
    }

    fn is(&self, i: usize, kind: TokenKind) -> bool {
        self.kind(i) == Some(kind)
    }

    fn text(&self, i: usize) -> &str {
        let span = self.span(i);
        &self.line[span.start..span.end]
    }

    fn name(&self, i: usize) -> Option<&str> {
        self.is(i, TokenKind::Identifier).then(|| self.text(i))
    }

    fn register(&self, i: usize) -> Option<Register> {
        Register::parse(self.name(i)?, self.span(i))
    }

    fn address(&self, i: usize) -> Option<Register> {
        self.register(i)
            .filter(|register| register.kind == RegisterKind::Address)
    }

    fn counter(&self, i: usize) -> bool {
        self.name(i).is_some_and(is_program_counter)
    }

    fn suppressed(&self, i: usize) -> Option<Suppressed> {
        if self.mark == Some(i) {
            return None;
        }
        suppressed_register(self.name(i)?)
    }

    // ---- expressions

    /// A number's value, and `None` for one that is too large.
    fn worth(&self, i: usize, base: NumberBase) -> Option<i64> {
        let digits = &self.text(i)[base.prefix().len()..];
        let all = digits.chars().all(|c| c.is_digit(base.radix()));
        match parse_digits(base, digits) {
            Some(value) => Some(value),
            None if all && !digits.is_empty() => None,
            None => Some(0),
        }
    }

    fn leaf(&self, i: usize) -> Option<Expr> {
        let span = self.tokens.get(i)?.span;
        match self.kind(i)? {
            TokenKind::Number(base) => Some(Expr::Number {
                value: self.worth(i, base)?,
                base,
                span,
            }),
            TokenKind::StringLiteral(quote) => Some(Expr::CharacterLiteral {
                bytes: string_literal_bytes(self.text(i)),
                quote,
                span,
            }),
            TokenKind::Identifier => {
                let doubtful = !self.suppressed_symbols && self.suppressed(i).is_some();
                (!is_reserved_name(self.text(i)) && !doubtful).then(|| Expr::Symbol {
                    name: self.text(i).to_string(),
                    span,
                })
            }
            TokenKind::LocalIdentifier => Some(Expr::Symbol {
                name: self.text(i).to_string(),
                span,
            }),
            TokenKind::Star => Some(Expr::CurrentAddress { span }),
            _ => None,
        }
    }

    fn group(&self, room: usize, i: usize) -> Ends<Expr> {
        let mut ends = Vec::new();
        for (j, e) in self.level(1, room, i + 1) {
            if self.is(j, TokenKind::RightParen) {
                ends.push((j + 1, widened(e, join(self.span(i), self.span(j)))));
            }
        }
        ends
    }

    fn term(&self, room: usize, i: usize) -> Ends<Expr> {
        if i == self.own && self.is(i, TokenKind::LeftParen) {
            return self.group(room, i);
        }
        if room == 0 {
            return Vec::new();
        }
        let operator = match self.kind(i) {
            Some(TokenKind::LeftParen) => return self.group(room - 1, i),
            Some(TokenKind::Minus) => UnaryOperator::Minus,
            Some(TokenKind::Tilde) => UnaryOperator::Not,
            _ => return self.leaf(i).map(|e| (i + 1, e)).into_iter().collect(),
        };
        let unary = |(j, e): (usize, Expr)| {
            let span = join(self.span(i), e.span());
            let operand = Box::new(e);
            (
                j,
                Expr::Unary {
                    operator,
                    operand,
                    span,
                },
            )
        };
        self.term(room - 1, i + 1).into_iter().map(unary).collect()
    }

    fn operator(&self, m: u8, j: usize) -> Option<BinaryOperator> {
        use TokenKind::*;
        let (level, operator) = match self.kind(j)? {
            ShiftLeft => (4, BinaryOperator::ShiftLeft),
            ShiftRight => (4, BinaryOperator::ShiftRight),
            Ampersand => (3, BinaryOperator::And),
            Bang | Pipe => (3, BinaryOperator::Or),
            Caret => (3, BinaryOperator::ExclusiveOr),
            Star => (2, BinaryOperator::Multiply),
            Slash => (2, BinaryOperator::Divide),
            Backslash => (2, BinaryOperator::Modulo),
            Plus => (1, BinaryOperator::Add),
            Minus => (1, BinaryOperator::Subtract),
            _ => return None,
        };
        (level == m).then_some(operator)
    }

    fn level(&self, m: u8, room: usize, i: usize) -> Ends<Expr> {
        if m == 5 {
            return self.term(room, i);
        }
        let mut ends = self.level(m + 1, room, i);
        let mut next = 0;
        while next < ends.len() {
            let (j, left) = ends[next].clone();
            next += 1;
            let Some(operator) = self.operator(m, j) else {
                continue;
            };
            for (n, right) in self.level(m + 1, room, j + 1) {
                let span = join(left.span(), right.span());
                let (left, right) = (Box::new(left.clone()), Box::new(right));
                ends.push((
                    n,
                    Expr::Binary {
                        operator,
                        left,
                        right,
                        span,
                    },
                ));
            }
        }
        ends
    }

    fn e(&self, i: usize) -> Ends<Expr> {
        self.level(1, self.limit, i)
    }

    // ---- the parts

    fn size(&self, i: usize) -> Option<SizeSuffix> {
        let suffix = self.is(i, TokenKind::SizeSuffix);
        suffix.then(|| SizeSuffix::from_run(&self.text(i)[1..]))?
    }

    /// `.s`, always optional.
    fn sized(&self, i: usize) -> Ends<Option<SizeSuffix>> {
        let mut ends = vec![(i, None)];
        ends.extend(self.size(i).map(|size| (i + 1, Some(size))));
        ends
    }

    /// `E.s`
    fn displacement(&self, i: usize) -> Ends<SizedDisplacement> {
        let mut ends = Vec::new();
        for (j, value) in self.e(i) {
            for (n, size) in self.sized(j) {
                let value = value.clone();
                ends.push((n, SizedDisplacement { value, size }));
            }
        }
        ends
    }

    fn scale(&self, i: usize) -> Option<u8> {
        let Some(TokenKind::Number(base)) = self.kind(i + 1) else {
            return None;
        };
        let value = parse_digits(base, &self.text(i + 1)[base.prefix().len()..])?;
        (self.is(i, TokenKind::Star) && [1, 2, 4, 8].contains(&value)).then_some(value as u8)
    }

    /// X
    fn x(&self, i: usize) -> Ends<IndexRegister> {
        let (register, suppressed) = match (self.register(i), self.suppressed(i)) {
            (Some(register), _) => (register, false),
            (None, Some(Suppressed::Data(number))) => {
                (self.of(RegisterKind::Data, number, i), true)
            }
            (None, Some(Suppressed::Address(number))) => {
                (self.of(RegisterKind::Address, number, i), true)
            }
            _ => return Vec::new(),
        };
        let mut ends = Vec::new();
        for (j, size) in self.sized(i + 1) {
            for (n, scale) in [(j, None), (j + 2, self.scale(j))] {
                if n == j || scale.is_some() {
                    let span = join(register.span, self.span(n - 1));
                    ends.push((
                        n,
                        IndexRegister {
                            register,
                            size,
                            scale,
                            suppressed,
                            span,
                        },
                    ));
                }
            }
        }
        ends
    }

    fn of(&self, kind: RegisterKind, number: u8, i: usize) -> Register {
        let span = self.span(i);
        Register { kind, number, span }
    }

    /// B
    fn b(&self, i: usize) -> Option<BaseRegister> {
        if let Some(register) = self.address(i) {
            return Some(BaseRegister::Address { register });
        }
        if self.counter(i) {
            return Some(BaseRegister::ProgramCounter);
        }
        match self.suppressed(i)? {
            Suppressed::Data(_) => None,
            Suppressed::Address(number) => Some(BaseRegister::SuppressedAddress { number }),
            Suppressed::ProgramCounter => Some(BaseRegister::SuppressedProgramCounter),
        }
    }

    /// BI
    fn bi(&self, i: usize) -> Ends<Both> {
        let mut ends = Vec::new();
        let base = self.b(i);
        if let Some(base) = base {
            ends.push((i + 1, (base, None)));
            if self.is(i + 1, TokenKind::Comma) {
                ends.extend(self.x(i + 2).into_iter().map(|(j, x)| (j, (base, Some(x)))));
            }
        }
        for (j, x) in self.x(i) {
            if !(base.is_some() && j == i + 1) {
                ends.push((j, (BaseRegister::Omitted, Some(x))));
            }
        }
        ends
    }

    /// F
    fn f(&self, i: usize) -> Ends<Both> {
        let first = |(j, (base, x)): (usize, Both)| {
            let data = self.register(i).is_some() && self.address(i).is_none();
            let tails =
                self.address(i).is_some() && x.is_some_and(|_| base == BaseRegister::Omitted);
            (self.suppressed(i).is_some() || data || tails).then_some((j, (base, x)))
        };
        self.bi(i).into_iter().filter_map(first).collect()
    }

    /// I
    fn i(&self, i: usize) -> Ends<(Option<SizedDisplacement>, Both)> {
        let none = (BaseRegister::Omitted, None);
        let mut ends = vec![(i, (None, none))];
        for (j, d) in self.displacement(i) {
            ends.push((j, (Some(d.clone()), none)));
            if self.is(j, TokenKind::Comma) {
                let more = self.bi(j + 1).into_iter();
                ends.extend(more.map(|(n, both)| (n, (Some(d.clone()), both))));
            }
        }
        ends.extend(self.bi(i).into_iter().map(|(j, both)| (j, (None, both))));
        ends
    }

    /// T, for an I with or without index.
    fn t(
        &self,
        i: usize,
        index: Option<IndexRegister>,
    ) -> Ends<(
        Option<IndexRegister>,
        Indirection,
        Option<SizedDisplacement>,
    )> {
        let mut ends = vec![(i, (index, Indirection::Preindexed, None))];
        if !self.is(i, TokenKind::Comma) {
            return ends;
        }
        for (j, d) in self.displacement(i + 1) {
            ends.push((j, (index, Indirection::Preindexed, Some(d))));
        }
        if index.is_some() {
            return ends;
        }
        for (j, x) in self.x(i + 1) {
            ends.push((j, (Some(x), Indirection::Postindexed, None)));
            if self.is(j, TokenKind::Comma) {
                for (n, d) in self.displacement(j + 1) {
                    ends.push((n, (Some(x), Indirection::Postindexed, Some(d))));
                }
            }
        }
        ends
    }

    // ---- the forms

    /// Every operand that is spelled from the first place on.
    pub fn operands(&self) -> Ends<Operand> {
        let mut ends = Vec::new();
        if self.own >= self.tokens.len() {
            return ends;
        }
        self.immediate(&mut ends);
        self.direct(&mut ends);
        self.indirect(&mut ends);
        self.displaced(&mut ends);
        self.full(&mut ends);
        self.absolute(&mut ends);
        self.list(&mut ends);
        ends
    }

    fn start(&self) -> usize {
        self.span(self.own).start
    }

    /// The span up to the end of the token before a place.
    fn upto(&self, n: usize) -> Span {
        Span::new(self.start(), self.span(n - 1).end)
    }

    fn immediate(&self, ends: &mut Ends<Operand>) {
        if !self.is(self.own, TokenKind::Hash) {
            return;
        }
        for (j, value) in self.e(self.own + 1) {
            if self.size(j) == Some(SizeSuffix::Long) {
                let (value, span) = (value.clone(), self.upto(j + 1));
                ends.push((
                    j + 1,
                    Operand::Immediate {
                        value,
                        long: true,
                        span,
                    },
                ));
            }
            let span = Span::new(self.start(), value.span().end);
            ends.push((
                j,
                Operand::Immediate {
                    value,
                    long: false,
                    span,
                },
            ));
        }
    }

    fn direct(&self, ends: &mut Ends<Operand>) {
        let (i, span) = (self.own, self.span(self.own));
        if let Some(register) = self.register(i) {
            ends.push((
                i + 1,
                match register.kind {
                    RegisterKind::Data => Operand::DataRegisterDirect { register, span },
                    RegisterKind::Address => Operand::AddressRegisterDirect { register, span },
                },
            ));
        }
        if let Some(register) = self.name(i).and_then(SpecialRegister::parse) {
            ends.push((i + 1, Operand::SpecialRegister { register, span }));
        }
    }

    fn indirect(&self, ends: &mut Ends<Operand>) {
        let i = self.own;
        let parenthesised = |i: usize| {
            let parens = self.is(i, TokenKind::LeftParen) && self.is(i + 2, TokenKind::RightParen);
            self.address(i + 1).filter(|_| parens)
        };
        if let Some(register) = parenthesised(i) {
            ends.push((
                i + 3,
                Operand::Indirect {
                    register,
                    span: self.upto(i + 3),
                },
            ));
            if self.is(i + 3, TokenKind::Plus) {
                ends.push((
                    i + 4,
                    Operand::Postincrement {
                        register,
                        span: self.upto(i + 4),
                    },
                ));
            }
        }
        if let (true, Some(register)) = (self.is(i, TokenKind::Minus), parenthesised(i + 1)) {
            ends.push((
                i + 4,
                Operand::Predecrement {
                    register,
                    span: self.upto(i + 4),
                },
            ));
        }
    }

    /// E before `(`.
    fn before(&self) -> Ends<Expr> {
        if !self.is(self.own, TokenKind::LeftParen) {
            return self.e(self.own);
        }
        let closed =
            |(j, e): (usize, Expr)| self.is(j, TokenKind::RightParen).then_some((j + 1, e));
        self.e(self.own + 1)
            .into_iter()
            .filter_map(closed)
            .collect()
    }

    /// `(`, `E(` or `(E,`, up to the base.
    fn opening(&self) -> Ends<Option<Expr>> {
        let mut ends = Vec::new();
        for (j, e) in self.before() {
            if self.is(j, TokenKind::LeftParen) {
                ends.push((j + 1, Some(e)));
            }
        }
        if self.is(self.own, TokenKind::LeftParen) {
            ends.push((self.own + 1, None));
            for (j, e) in self.e(self.own + 1) {
                if self.is(j, TokenKind::Comma) {
                    ends.push((j + 1, Some(e)));
                }
            }
        }
        ends
    }

    fn displaced(&self, ends: &mut Ends<Operand>) {
        for (j, e) in self.opening() {
            let base = self.address(j);
            if base.is_none() && !self.counter(j) {
                continue;
            }
            if let (Some(e), true) = (&e, self.is(j + 1, TokenKind::RightParen)) {
                let (displacement, span) = (e.clone(), self.upto(j + 2));
                ends.push((
                    j + 2,
                    match base {
                        Some(base) => Operand::Displacement {
                            displacement,
                            base,
                            span,
                        },
                        None => Operand::PcDisplacement { displacement, span },
                    },
                ));
            }
            if !self.is(j + 1, TokenKind::Comma) {
                continue;
            }
            for (n, index) in self.x(j + 2) {
                if self.is(n, TokenKind::RightParen) {
                    ends.push((n + 1, indexed(e.clone(), base, index, self.upto(n + 1))));
                }
            }
        }
    }

    fn full(&self, ends: &mut Ends<Operand>) {
        let i = self.own;
        if !self.is(i, TokenKind::LeftParen) {
            return;
        }
        let mut found: Ends<(Option<SizedDisplacement>, Both)> = Vec::new();
        found.extend(self.f(i + 1).into_iter().map(|(j, both)| (j, (None, both))));
        for (j, d) in self.displacement(i + 1) {
            if self.is(j, TokenKind::Comma) {
                let more = match d.size {
                    Some(_) => self.bi(j + 1),
                    None => self.f(j + 1),
                };
                found.extend(
                    more.into_iter()
                        .map(|(n, both)| (n, (Some(d.clone()), both))),
                );
            }
        }
        for (n, (base_displacement, (base, index))) in found {
            if self.is(n, TokenKind::RightParen) {
                let (indirection, span) = (Indirection::None, self.upto(n + 1));
                let outer_displacement = None;
                ends.push((
                    n + 1,
                    Operand::FullIndex {
                        base_displacement,
                        base,
                        index,
                        indirection,
                        outer_displacement,
                        span,
                    },
                ));
            }
        }
        self.memory_indirect(ends);
    }

    fn memory_indirect(&self, ends: &mut Ends<Operand>) {
        let i = self.own;
        if !self.is(i + 1, TokenKind::LeftBracket) {
            return;
        }
        for (j, (base_displacement, (base, inner))) in self.i(i + 2) {
            if !self.is(j, TokenKind::RightBracket) {
                continue;
            }
            for (n, (index, indirection, outer_displacement)) in self.t(j + 1, inner) {
                if self.is(n, TokenKind::RightParen) {
                    let (base_displacement, span) = (base_displacement.clone(), self.upto(n + 1));
                    ends.push((
                        n + 1,
                        Operand::FullIndex {
                            base_displacement,
                            base,
                            index,
                            indirection,
                            outer_displacement,
                            span,
                        },
                    ));
                }
            }
        }
    }

    fn absolute(&self, ends: &mut Ends<Operand>) {
        for (j, value) in self.e(self.own) {
            for (n, size) in self.sized(j) {
                let end = if n == j {
                    value.span().end
                } else {
                    self.span(n - 1).end
                };
                let (value, span) = (value.clone(), Span::new(self.start(), end));
                ends.push((n, Operand::Absolute { value, size, span }));
            }
        }
    }

    fn item(&self, i: usize) -> Ends<RegisterListItem> {
        let Some(from) = self.register(i) else {
            return Vec::new();
        };
        let mut ends = vec![(
            i + 1,
            RegisterListItem::Single {
                register: from,
                span: from.span,
            },
        )];
        if let (true, Some(to)) = (self.is(i + 1, TokenKind::Minus), self.register(i + 2)) {
            if from.mask_index() <= to.mask_index() {
                let span = join(from.span, to.span);
                ends.push((i + 3, RegisterListItem::Range { from, to, span }));
            }
        }
        ends
    }

    fn list(&self, ends: &mut Ends<Operand>) {
        let mut lists: Ends<Vec<RegisterListItem>> = Vec::new();
        lists.extend(
            self.item(self.own)
                .into_iter()
                .map(|(j, item)| (j, vec![item])),
        );
        let mut next = 0;
        while next < lists.len() {
            let (j, items) = lists[next].clone();
            next += 1;
            if self.is(j, TokenKind::Slash) {
                for (n, item) in self.item(j + 1) {
                    let mut items = items.clone();
                    items.push(item);
                    lists.push((n, items));
                }
            }
            if j > self.own + 1 {
                let span = self.upto(j);
                ends.push((j, Operand::RegisterList { items, span }));
            }
        }
    }
}

fn indexed(e: Option<Expr>, base: Option<Register>, index: IndexRegister, span: Span) -> Operand {
    if index.suppressed {
        return Operand::FullIndex {
            base_displacement: e.map(|value| SizedDisplacement { value, size: None }),
            base: match base {
                Some(register) => BaseRegister::Address { register },
                None => BaseRegister::ProgramCounter,
            },
            index: Some(index),
            indirection: Indirection::None,
            outer_displacement: None,
            span,
        };
    }
    match base {
        Some(base) => Operand::Index {
            displacement: e,
            base,
            index,
            span,
        },
        None => Operand::PcIndex {
            displacement: e,
            index,
            span,
        },
    }
}

/// The same tree, with another span at its root.
fn widened(e: Expr, span: Span) -> Expr {
    match e {
        Expr::Number { value, base, .. } => Expr::Number { value, base, span },
        Expr::CharacterLiteral { bytes, quote, .. } => {
            Expr::CharacterLiteral { bytes, quote, span }
        }
        Expr::Symbol { name, .. } => Expr::Symbol { name, span },
        Expr::CurrentAddress { .. } => Expr::CurrentAddress { span },
        Expr::Unary {
            operator, operand, ..
        } => Expr::Unary {
            operator,
            operand,
            span,
        },
        Expr::Binary {
            operator,
            left,
            right,
            ..
        } => Expr::Binary {
            operator,
            left,
            right,
            span,
        },
    }
}

#[cfg(test)]
mod tests {
    use super::*;
    use crate::layout::Layout;
    use crate::lexer::tokens_of;
    use crate::tokens::rust_token;

    /// The spellings of a text that end where it ends.
    fn whole(text: &str, suppressed_symbols: bool) -> Vec<Operand> {
        let tokens = tokens_of(Layout::Narrow, text.as_bytes(), false).unwrap();
        let tokens: Vec<Token> = tokens.into_iter().map(rust_token).collect();
        let grammar = Grammar {
            line: text,
            tokens: &tokens,
            own: 0,
            mark: None,
            limit: 64,
            suppressed_symbols,
        };
        let ends = grammar.operands().into_iter();
        ends.filter(|end| end.0 == tokens.len())
            .map(|end| end.1)
            .collect()
    }

    #[test]
    fn each_has_one_spelling() {
        for text in [
            "#5",
            "d0",
            "sp",
            "sr",
            "(a0)",
            "(a0)+",
            "-(a0)",
            "4(a0)",
            "(4,a0)",
            "(a0,d1)",
            "4(pc)",
            "(4,pc,d1.w*2)",
            "(a0,zd1)",
            "(d0)",
            "(4,za0)",
            "(4.w,a0)",
            "([])",
            "([4,a0],d1,8)",
            "1+2*3",
            "($10).w",
            "(1)(a0)",
            "d0-d3/a0",
        ] {
            assert_eq!(whole(text, false).len(), 1, "{text}");
        }
    }

    #[test]
    fn these_have_none() {
        for text in [
            "#5.w",
            "(pc)",
            "a0-d0",
            "d0/",
            "($10.w)",
            "(1)+2(a0)",
            "+1",
            "(a0,5)",
            "-(d0)",
            "([a0,d1],d2)",
            "(d0,a0)",
            "pc",
        ] {
            assert_eq!(whole(text, false).len(), 0, "{text}");
        }
    }

    #[test]
    fn a_suppressed_name_may_be_a_symbol() {
        assert_eq!(whole("(za0)", false).len(), 1);
        assert_eq!(whole("(za0)", true).len(), 2);
    }
}
