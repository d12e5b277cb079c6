//! "One at or past the token count means none": also marks that fewer bits than theirs would turn into a token's place.

use crate::common::Input;
use crate::text::Text;
use sagdrif::Layout;

const TEXTS: [&str; 5] = [
    "(zd0)",
    "(za0,zd1.w*4)",
    "(4,zpc,d0)",
    "([za0],zd0)",
    "([4,zpc],za1,8)",
];

fn answer(layout: Layout, text: &Text, mark: usize) -> Vec<u8> {
    Input::new(layout, &text.line, &text.list(layout), 0, mark).answer_line()
}

fn a_mark_past_the_list_is_none_in(layout: Layout, words: &str) {
    let text = Text::of(words);
    let count = text.tokens.len();
    let none = answer(layout, &text, layout.sizes().tokens_most);
    let mut met = 0;
    for place in 0..count {
        met += usize::from(answer(layout, &text, place) != none);
        for far in [
            count,
            255,
            256,
            1023,
            1024,
            1 << 16,
            1 << 32,
            1 << 48,
            !0 - count,
        ] {
            let given = answer(layout, &text, far + place);
            assert_eq!(given, none, "{layout:?} {words} {far} {place}");
        }
    }
    assert!(met > 0, "{layout:?} {words}: no mark makes a symbol");
}

#[test]
fn a_mark_past_the_list_is_none() {
    for layout in Layout::ALL {
        for words in TEXTS {
            a_mark_past_the_list_is_none_in(layout, words);
        }
    }
}

/// A mark of two bytes, in a list of 1,023 tokens.
#[test]
fn a_mark_at_the_end_of_a_long_list() {
    let (blanks, operand) = (1017, b"([],zd1)");
    let mut text = Text::default();
    for _ in 0..blanks {
        text.push(b" ", true).expect("a blank");
    }
    text.push(operand, false).expect("an operand");
    assert_eq!(text.tokens.len(), Layout::Wide.sizes().tokens_most);
    let list = text.list(Layout::Wide);
    let read = |mark| Input::new(Layout::Wide, &text.line, &list, blanks, mark).answer_line();
    let none = read(1023);
    let met: Vec<usize> = (0..1100).filter(|mark| read(*mark) != none).collect();
    assert_eq!(met, [blanks + 4]);
}
