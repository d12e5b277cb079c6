//! The committed table `trial-lines.txt`: each frame has its answer, each text its frame.

mod common;

use common::frame_of;
use frames::layout::Layout;
use frames::reference::{answer_line, answer_line_at};
use frames::refusal::LIMIT_PROGRAM;
use frames::trial_lines::rows;

#[test]
fn every_frame_has_its_answer() {
    for row in rows() {
        let frame = row.frame.as_bytes();
        let limit = row.limit.unwrap_or(LIMIT_PROGRAM);
        let given = String::from_utf8(answer_line_at(frame, limit)).unwrap();
        assert_eq!(given, row.answer, "{}", row.words);
        if row.limit.is_none() {
            assert_eq!(answer_line(frame), given.as_bytes(), "{}", row.words);
        }
    }
}

#[test]
fn the_table_is_read_whole() {
    let (limited, others): (Vec<_>, Vec<_>) =
        rows().into_iter().partition(|row| row.limit.is_some());
    assert!(others.len() >= 90, "{}", others.len());
    assert!(limited.len() >= 50, "{}", limited.len());
    let wide = rows()
        .iter()
        .filter(|row| row.frame.starts_with('w'))
        .count();
    assert!(wide >= 20, "{wide}");
}

#[test]
fn every_text_has_its_frame() {
    for row in rows() {
        let Some(quoted) = row.words.strip_prefix('`') else {
            continue;
        };
        let (text, _) = quoted.split_once("`: ").expect("a text in backquotes");
        let frame = row.frame.as_bytes();
        let (layout, _) = Layout::of_line(frame);
        assert_eq!(frame_of(layout, text), frame, "{text}");
    }
}
