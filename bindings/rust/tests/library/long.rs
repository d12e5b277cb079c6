//! Lists that only the wide layout can hold, up to 1,023 tokens and 4,095 bytes, beside the Rust.

use crate::common::{answer_line_at as library_line_at, shown, Input};
use crate::text::{list, Text};
use frames::random::Random;
use frames::reference::answer_line_at;
use sagdrif::{Layout, LIMIT_MOST};

const MOST: usize = 1023;

/// A text of as many parts as fit into a list of 1,023 tokens, with the end behind them.
fn filled(start: &str, part: &str, end: &str) -> Text {
    let count = |text: &str| Text::of(text).tokens.len();
    let parts = (MOST - count(start) - count(end)) / count(part);
    let mut text = Text::of(start);
    for _ in 0..parts {
        text.push(part.as_bytes(), false).expect("a part");
    }
    text.push(end.as_bytes(), false).expect("an end");
    text
}

fn answers_are_the_rusts(text: &Text, start: usize, mark: usize, limit: usize) -> Vec<u8> {
    let list = text.list(Layout::Wide);
    let mut input = Input::new(Layout::Wide, &text.line, &list, start, mark).at_limit(limit);
    let line = input.to_line();
    let given = input.answer_line();
    let wanted = answer_line_at(&line, limit);
    assert_eq!(
        shown(&given),
        shown(&wanted),
        "limit {limit}: {}",
        shown(&line)
    );
    given
}

#[test]
fn the_longest_lists_have_the_rusts_answer() {
    let texts = [
        ("", "1+", "1"),
        ("", "name+", "name"),
        ("#", "1&1+", "1"),
        ("([", "1+", "1,a0],d0.w*4,8)"),
        ("([4,a0],d0,", "1*2+", "1)"),
        ("(", "1+", "1,a0,d0)"),
        ("", "d0/", "d0"),
        ("", "d0-d7/", "a0"),
        ("", "a7-d0/", "a0"),
        ("", "+", ""),
        ("", "-", "1"),
        ("", "(", "1"),
        ("", "1*/", ""),
        ("", "99999999999999999999+", "1"),
        ("4(a0)", ",", ""),
    ];
    for (start, part, end) in texts {
        for limit in [1, 2, 64, LIMIT_MOST] {
            answers_are_the_rusts(&filled(start, part, end), 0, MOST, limit);
        }
    }
}

/// A root with the number 1,022: the longest sum uses a node for each token.
#[test]
fn a_sum_uses_every_node() {
    let answer = answers_are_the_rusts(&filled("", "1+", "1"), 0, MOST, 64);
    assert!(shown(&answer).starts_with("w00ff03ff0300000d0000ff03fe03"));
}

#[test]
fn names_and_numbers_as_long_as_the_line() {
    for byte in [b'a', b'9', b'0'] {
        let mut text = Text {
            line: vec![byte; 4095],
            tokens: vec![[if byte == b'a' { 0 } else { 2 }, 0, 0, 4095]],
        };
        answers_are_the_rusts(&text, 0, MOST, 64);
        text.tokens.push([27, 0, 4095, 4095]);
        answers_are_the_rusts(&text, 0, MOST, 64);
        answers_are_the_rusts(&text, 1, MOST, 64);
    }
}

/// A wide frame can hold what refusals 1 and 3 refuse; no narrow one can.
#[test]
fn frames_that_hold_too_much() {
    let answer = |line: Vec<u8>, count: usize| {
        let end = line.len();
        let tokens = list(Layout::Wide, &vec![[28, 0, end, end]; count]);
        let frame = Input::new(Layout::Wide, &line, &tokens, 0, MOST).to_line();
        let given = library_line_at(&frame, 64);
        assert_eq!(given, answer_line_at(&frame, 64), "{}", shown(&frame));
        shown(&given)
    };
    let line = |length| vec![b'a'; length];
    for length in [4096, 65535] {
        assert_eq!(answer(line(length), 0), "w0201");
        assert_eq!(answer(line(length), 65535), "w0201");
        assert_eq!(answer(vec![200; length], 1024), "w0201");
    }
    for count in [1024, 65535] {
        assert_eq!(answer(line(4095), count), "w0203");
        assert_eq!(answer(b"\x1f".to_vec(), count), "w0202");
    }
    assert!(answer(line(4095), 1023).starts_with("w01"));
}

const WORDS: [&str; 40] = [
    "1", "name", "$ff", "'a'", "*", ".local", "(", ")", "[", "]", ",", "#", "+", "-", "~", "*",
    "/", "\\", "&", "|", "!", "^", "<<", ">>", "d0", "a1", "sp", "pc", "zd0", "za1", "zpc", "sr",
    "d1.w", "a2.l*4", "4.w", "-(", "([", "],", "name+", " ; ",
];

/// Mostly terms and operators in turn, so that a reading goes far; else any words.
fn any_text(random: &mut Random) -> Text {
    let most = random.pick(&[40, 255, 256, 400, MOST, MOST]);
    let opening = random.pick(&["", "#", "([", "(", "([4,a0],", "d0/", "-", "-("]);
    let mut text = Text::of(opening);
    let strange = random.pick(&[20, 200, 2000]);
    while text.tokens.len() + 4 < most && text.line.len() < 4000 {
        let word = match text.tokens.len() % 2 {
            _ if random.one_in(strange) => random.pick(&WORDS),
            0 => random.pick(&["1", "name", "$7f", "'it'", "x_1"]),
            _ => random.pick(&["+", "-", "*", "&", "<<", "|"]),
        };
        text.push(word.as_bytes(), random.one_in(2))
            .expect("a word");
    }
    text
}

#[test]
fn any_long_list_has_the_rusts_answer() {
    let mut beyond = 0;
    for case in 0..6000 {
        let mut random = Random::new(20261119, case);
        let text = any_text(&mut random);
        let count = text.tokens.len();
        let start = if random.one_in(3) {
            random.between(0, count)
        } else {
            0
        };
        let limit = random.between(1, LIMIT_MOST);
        let mark = random.between(0, count);
        let answer = answers_are_the_rusts(&text, start, mark, limit);
        beyond += usize::from(&answer[5..7] != b"00");
    }
    println!("{beyond} readings go beyond the token 255");
    assert!(beyond > 500, "{beyond}");
}
