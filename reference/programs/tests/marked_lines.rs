//! Every marked line of document 01 ("Trial lines and traps"), against the reference.

mod common;

use common::{read, read_marked, NO_MARK};
use frames::reference::answer_line;

const SAMPLE: &[u8] = b"053428613029040200000107000102000002040800040500ff";
const SAMPLE_ANSWER: &[u8] =
    b"00040100000800050000080204ff0000000000000000ff00000100ffff00010400000000000000";

#[test]
fn the_sample_frame_byte_for_byte() {
    assert_eq!(answer_line(SAMPLE), SAMPLE_ANSWER);
}

#[test]
fn the_empty_list() {
    assert_eq!(answer_line(b"000000ff"), b"0100000000");
    assert_eq!(answer_line(b"0141000000"), b"0100000000");
    let at_the_end = read_marked("d0", 1, NO_MARK);
    assert_eq!((at_the_end.form(), at_the_end.cursor), (0, 1));
    assert!(at_the_end.kinds().is_empty());
}

#[test]
fn a_data_register_in_parentheses_is_form_12() {
    let reading = read("(d0)");
    assert_eq!((reading.form(), reading.cursor), (12, 3));
    assert!(reading.kinds().is_empty());
}

#[test]
fn pc_alone_in_parentheses_lacks_its_displacement() {
    let reading = read("(pc)");
    assert_eq!(reading.form(), 0);
    assert_eq!(reading.malformed(), (7, 4));
}

#[test]
fn a_falling_range_is_kept() {
    let reading = read("a0-d0");
    assert_eq!((reading.form(), reading.kinds()), (14, vec![10]));
    assert_eq!(reading.text(0), (8, 0));
}

#[test]
fn a_range_has_two_ends() {
    let reading = read("d0-d1-d2");
    assert_eq!((reading.form(), reading.cursor), (14, 3));
}

#[test]
fn a_failed_right_side_keeps_the_left() {
    let reading = read("1+2*/3");
    assert_eq!(reading.tree(), "(1+2)/3");
    assert_eq!(reading.kinds(), [12]);
    assert_eq!((reading.form(), reading.cursor), (13, 6));
}

#[test]
fn the_levels_are_not_those_of_c() {
    assert_eq!(read("2*3&1").tree(), "2*(3&1)");
}

#[test]
fn the_parenthesis_behind_a_sum_is_not_read() {
    let reading = read("(1)+2(a0)");
    assert_eq!((reading.form(), reading.cursor), (13, 5));
}

#[test]
fn a_size_stands_behind_the_group() {
    assert_eq!(read("($10).w").form(), 13);
    assert_eq!(read("($10.w)").form(), 0);
}

#[test]
fn empty_brackets_are_form_12() {
    assert_eq!(read("([])").form(), 12);
}

#[test]
fn a_name_keeps_its_own_span() {
    let reading = read("(name)");
    assert_eq!(reading.operand().span, [0, 6]);
    assert_eq!(reading.spans_of_root(), ([0, 6], [1, 5]));
}

#[test]
fn minus_signs_up_to_the_limit() {
    let minuses = |count| read(&("-".repeat(count) + "1"));
    assert_eq!(minuses(63).form(), 13);
    assert!(minuses(63).kinds().is_empty());
    assert_eq!(minuses(64).form(), 0);
    assert_eq!(minuses(64).kinds(), [6]);
}

#[test]
fn groups_up_to_the_limit() {
    let groups = |before: &str, count| {
        let text = format!("{before}{}1{}", "(".repeat(count), ")".repeat(count));
        read(&text).form()
    };
    assert_eq!((groups("", 64), groups("", 65)), (13, 0));
    assert_eq!((groups("#", 63), groups("#", 64)), (1, 0));
}

#[test]
fn a_unary_plus_is_stepped_over() {
    let reading = read("1++5");
    assert_eq!((reading.cursor, reading.tree()), (4, "1+5".to_string()));
    assert_eq!(reading.kinds(), [13]);
    assert_eq!((reading.span(0), reading.text(0)), ((2, 3), (3, 4)));
}
