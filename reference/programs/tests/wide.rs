//! The wide layout: its samples, every limit met exactly, and one past each.

mod common;

use common::{frame_line, frame_of, read_wide, read_wide_at};
use frames::layout::Layout;
use frames::records::Content;
use frames::reference::{answer_line, answer_line_at};
use frames::tokens::TokenRecord;

const WIDE: Layout = Layout::Wide;
const LINE: usize = 4095;
const LIST: usize = 1023;
/// The characters of the longest frame that is read, and of the longest that is one.
const LONGEST_READ: usize = 20_483;
const LONGEST: usize = 917_507;

/// An empty Comment token at an offset.
const fn comment(at: usize) -> TokenRecord {
    TokenRecord::new(27, 0, at, at)
}

fn answer(frame: &[u8]) -> String {
    String::from_utf8(answer_line(frame)).expect("digits")
}

#[test]
fn the_papers_samples() {
    for (text, wanted) in [
        ("4(a0)", "w0004000100000008000005000000000802000400ff000000000000000000000000ffff00000100ffffffff000001000400000000000000"),
        ("d1/a0", "w000300020000000e00000500000000ff00000000ff000000000000000000000000ffff0000070001000100000002000000020000000200070008000800030005000300050003000500"),
        ("a0-d0", "w000300010001000e00000500000000ff00000000ff000000000000000000000000ffff00000800080000000000050000000200030005000a000000000500080000000000000000"),
    ] {
        assert_eq!(answer(&frame_of(WIDE, text)), wanted, "{text}");
    }
}

#[test]
fn a_line_of_4095_bytes_is_read_and_one_of_4096_is_not() {
    let name = "n".repeat(LINE);
    let reading = read_wide(&name);
    assert_eq!((reading.form(), reading.cursor), (13, 1));
    assert_eq!(reading.operand().span, [0, LINE]);
    assert_eq!(reading.spans_of_root(), ([0, LINE], [0, LINE]));
    let wanted = answer(&frame_of(WIDE, &name));
    assert!(wanted.contains("0000ff0f0000ff0f"), "{wanted}");
    let token = [TokenRecord::new(0, 0, 0, LINE)];
    let over = frame_line(WIDE, &(name + "n"), &token, 0, 0);
    assert_eq!(answer(&over), "w0201");
}

#[test]
fn a_list_of_1023_tokens_is_read_and_one_of_1024_is_not() {
    let sum = "1+".repeat(LIST / 2) + "1";
    let reading = read_wide(&sum);
    assert_eq!((reading.form(), reading.cursor), (13, LIST));
    assert_eq!(reading.records.nodes.len(), LIST);
    assert_eq!(reading.operand().node, Some(LIST - 1));
    assert_eq!(
        (reading.root().left, reading.root().right),
        (Some(1020), Some(1021))
    );
    let given = answer(&frame_of(WIDE, &sum));
    assert!(
        given.starts_with("w00ff03ff0300000d0000ff03fe03"),
        "{given}"
    );
    let over = |line: &str| answer(&frame_line(WIDE, line, &[comment(0); LIST + 1], 0, 0));
    assert_eq!(over(""), "w0203");
    assert_eq!(over("\x1f"), "w0202");
    assert_eq!(over(&"1".repeat(LINE)), "w0203");
    assert_eq!(over(&"\x1f".repeat(LINE + 1)), "w0201");
}

#[test]
fn the_longest_frame_that_is_read() {
    let line = "1".repeat(LINE);
    let mut tokens = [comment(LINE); LIST];
    tokens[0] = TokenRecord::new(2, 0, 0, LINE);
    let frame = frame_line(WIDE, &line, &tokens, 0, 0);
    assert_eq!(frame.len(), LONGEST_READ);
    assert!(answer(&frame).starts_with("w0001000100"));
    // The last token alone, an empty one where the line ends.
    let last = frame_line(WIDE, &line, &tokens, LIST - 1, 0);
    assert!(
        answer(&last).starts_with("w01fe030000010008"),
        "{}",
        answer(&last)
    );
    let behind = frame_line(WIDE, &line, &tokens, LIST, 0);
    assert_eq!(answer(&behind), "w01ff0300000000");
    let past = frame_line(WIDE, &line, &tokens, LIST + 1, 0);
    assert_eq!(answer(&past), "w0205");
}

#[test]
fn the_longest_line_that_is_a_frame() {
    let most = 65_535;
    let frame = frame_line(WIDE, &"1".repeat(most), &vec![comment(0); most], 0, 0);
    assert_eq!(frame.len(), LONGEST);
    assert_eq!(answer(&frame), "w0201");
    assert_eq!(answer(&[&frame[..], b"0"].concat()), "w0208");
    assert_eq!(answer(&[&frame[..], b"00"].concat()), "w0208");
    assert_eq!(answer(&frame[..LONGEST - 2]), "w0208");
    let tokens = frame_line(WIDE, "1", &vec![comment(1); most], 0, 0);
    assert_eq!(answer(&tokens), "w0203");
    let bytes = frame_line(WIDE, &"1".repeat(most), &[], 0, 0);
    assert_eq!(answer(&bytes), "w0201");
}

#[test]
fn starts_and_marks_beyond_a_byte() {
    let before = "?".repeat(300);
    let text = format!("{before}(zd0)");
    let read = |mark| read_wide_at(&text, 300, mark);
    for none in [0, 299, 303, 255, 256, 1022, 65_279, 65_535] {
        assert_eq!(read(none).form(), 12, "{none}");
    }
    assert_eq!(read(301).form(), 13);
    assert_eq!(read(301).spans_of_root(), ([300, 305], [301, 304]));
    // 301 without its high byte.
    assert_eq!(read(301 - 256).form(), 12);
}

#[test]
fn registers_keep_one_byte_in_the_operand() {
    let reading = read_wide(&format!("{}(a0,d1.w*4)", "n".repeat(600)));
    let operand = reading.operand();
    assert_eq!((operand.form, operand.base, operand.index), (9, 8, 1));
    assert_eq!(
        (operand.base_span, operand.index_span),
        ([601, 603], [604, 610])
    );
    let absent = read_wide("sr");
    assert_eq!((absent.operand().base, absent.operand().index), (255, 255));
}

#[test]
fn lists_of_registers_and_of_diagnostics_beyond_a_byte() {
    let list = "a0-d0/".repeat(256);
    let reading = read_wide(&list[..list.len() - 1]);
    assert_eq!((reading.form(), reading.cursor), (14, LIST));
    assert_eq!(reading.records.nodes.len(), 256);
    assert_eq!(reading.kinds(), [10; 256]);
    let last = reading.records.nodes[255];
    assert_eq!((last.left, last.right), (Some(8), Some(0)));
    let ends = Content::Ends([1530, 1532], [1533, 1535]);
    assert_eq!(last.content, ends);
    assert_eq!(
        (reading.span(255), reading.text(255)),
        ((1530, 1535), (8, 0))
    );
}

#[test]
fn the_nesting_limit_is_64_in_both() {
    let minuses = |count| frame_of(WIDE, &("-".repeat(count) + "1"));
    assert!(answer(&minuses(63)).starts_with("w00"));
    assert!(answer(&minuses(64)).starts_with("w01"));
    for limit in [1, 2, 63, 65, 128] {
        let at = |count| answer_line_at(&minuses(count), limit);
        assert!(at(limit - 1).starts_with(b"w00"), "{limit}");
        assert!(at(limit).starts_with(b"w01"), "{limit}");
    }
    // As many groups as 128 allow, which no narrow list can close.
    let groups = |count: usize| "(".repeat(count) + "1" + &")".repeat(count);
    let at = |count| answer_line_at(&frame_of(WIDE, &groups(count)), 128);
    assert!(at(128).starts_with(b"w00"));
    assert!(at(129).starts_with(b"w01"));
}
