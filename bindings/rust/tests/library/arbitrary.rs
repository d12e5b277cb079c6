//! Arbitrary bytes in every parameter, in both layouts: the answer is the Rust's where a frame can hold the input.

use crate::common::{refused_line, shown, Input};
use crate::text::Text;
use frames::random::Random;
use frames::reference::answer_line_at;
use sagdrif::{Layout, LIMIT_MOST, LIMIT_PROGRAM};

fn bytes(random: &mut Random, length: usize, wild: bool) -> Vec<u8> {
    if !wild {
        return (0..length).map(|_| random.line_byte()).collect();
    }
    let eights = (0..length.div_ceil(8)).map(|_| random.draw().to_le_bytes());
    let mut bytes = eights.collect::<Vec<_>>().into_flattened();
    bytes.truncate(length);
    bytes
}

fn length(random: &mut Random, usual: usize, most: usize) -> usize {
    let bound = if random.one_in(8) { most } else { usual };
    random.between(0, bound)
}

fn number(random: &mut Random) -> usize {
    if random.one_in(8) {
        random.draw() as usize
    } else {
        random.below(6)
    }
}

/// A nesting limit: mostly one that a call may choose, else one beside them or any number.
fn limit(random: &mut Random) -> usize {
    match random.below(16) {
        0 => random.pick(&[0, LIMIT_MOST + 1]),
        1 => random.draw() as usize,
        _ => random.between(1, LIMIT_MOST),
    }
}

/// The tokens of a line if it has no foreign byte.
fn lexed(layout: Layout, line: &[u8], blanks: bool) -> Option<Vec<u8>> {
    let mut text = Text::default();
    // In parts, so that a line that is too long has tokens as well.
    for part in line.chunks(1000) {
        text.push(part, blanks)?;
    }
    Some(text.list(layout))
}

/// Bytes that are no tokens but by chance.
fn any_list(random: &mut Random, layout: Layout) -> Vec<u8> {
    let (token, most) = (layout.sizes().token, layout.sizes().tokens_most);
    let length_of_list = length(random, 10 * token, (most + most / 12) * token);
    bytes(random, length_of_list, true)
}

fn arbitrary(random: &mut Random, layout: Layout) -> Input {
    let sizes = layout.sizes();
    let length_of_line = length(random, 20, sizes.line_most + sizes.line_most / 6);
    let wild = random.one_in(8);
    let line = bytes(random, length_of_line, wild);
    let blanks = random.one_in(2);
    let mut tokens = lexed(layout, &line, blanks).unwrap_or_else(|| any_list(random, layout));
    if random.one_in(4) && !tokens.is_empty() {
        let at = random.below(tokens.len());
        tokens[at] = random.draw() as u8;
    }
    if random.one_in(16) {
        tokens = any_list(random, layout);
    }
    let (start, mark) = (number(random), number(random));
    let mut input = Input::new(layout, &line, &tokens, start, mark).at_limit(limit(random));
    let (nodes, list) = (sizes.nodes_bytes, sizes.diagnostic * sizes.diagnostics_free);
    let nodes = random.between(nodes - 1, nodes + 5);
    let list = random.between(list - sizes.diagnostic, list + 9 * sizes.diagnostic);
    input.nodes = bytes(random, nodes, true);
    input.diagnostics = bytes(random, list, true);
    input.used = if random.one_in(8) {
        number(random)
    } else {
        random.below(2)
    };
    input
}

/// Refusals 1 to 3, for what no frame may hold.
fn wanted_of_lengths(input: &Input) -> Option<u8> {
    let sizes = input.layout.sizes();
    if input.line.len() > sizes.line_most {
        return Some(1);
    }
    if input.line.iter().any(|byte| !(0x20..=0x7e).contains(byte)) {
        return Some(2);
    }
    let (count, rest) = (
        input.tokens.len() / sizes.token,
        input.tokens.len() % sizes.token,
    );
    (rest != 0 || count > sizes.tokens_most).then_some(3)
}

/// Refusal 4, which the reference tells.
fn has_bad_token(input: &Input) -> bool {
    let at_first = Input {
        start: 0,
        ..input.clone()
    };
    let answer = answer_line_at(&at_first.to_line(), LIMIT_PROGRAM);
    answer == refused_line(input.layout, 4)
}

/// The number that the table gives.
fn wanted_number(input: &Input) -> u8 {
    let sizes = input.layout.sizes();
    if let Some(number) = wanted_of_lengths(input) {
        return number;
    }
    if has_bad_token(input) {
        return 4;
    }
    if input.start > input.tokens.len() / sizes.token {
        return 5;
    }
    if input.nodes.len() < sizes.nodes_bytes {
        return 6;
    }
    let whole = input.diagnostics.len() / sizes.diagnostic;
    if whole.saturating_sub(input.used) < sizes.diagnostics_free {
        return 7;
    }
    if (1..=LIMIT_MOST).contains(&input.limit) {
        0
    } else {
        18
    }
}

fn every_input_has_its_answer_in(layout: Layout, seed: u64, cases: u64) {
    let mut seen = [0usize; 19];
    for case in 0..cases {
        let mut random = Random::new(seed, case);
        let mut input = arbitrary(&mut random, layout);
        let before = input.clone();
        let wanted = wanted_number(&input);
        seen[wanted as usize] += 1;
        let line = input.answer_line();
        let wanted = match wanted {
            0 => answer_line_at(&before.to_line(), before.limit),
            number => refused_line(layout, number),
        };
        assert_eq!(shown(&line), shown(&wanted), "case {case}: {before:?}");
    }
    let counts = [0, 1, 2, 3, 4, 5, 6, 7, 18].map(|number: usize| seen[number]);
    println!("{layout:?}, numbers 0 to 7, and 18: {counts:?}");
    assert!(counts.iter().all(|count| *count > 100), "{counts:?}");
}

#[test]
fn every_narrow_input_has_its_answer() {
    every_input_has_its_answer_in(Layout::Narrow, 20261116, 200_000);
}

#[test]
fn every_wide_input_has_its_answer() {
    every_input_has_its_answer_in(Layout::Wide, 20261118, 100_000);
}
