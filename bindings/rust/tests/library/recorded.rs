//! The recorded frames of the program, read by the library.

use crate::common::{answer_line_at, shown, Input};
use crate::text::Text;
use sagdrif::{Layout, LIMIT_PROGRAM};

const STDIN: &[u8] = include_bytes!("../../../../crates/operands/stdin");
const STDOUT: &[u8] = include_bytes!("../../../../crates/operands/stdout");

/// Lines that need not be UTF-8.
fn lines(text: &'static [u8]) -> Vec<&'static [u8]> {
    let text = text.strip_suffix(b"\n").unwrap_or(text);
    text.split(|byte| *byte == b'\n').collect()
}

/// The recorded lines of input.
pub fn recorded_lines() -> Vec<&'static [u8]> {
    lines(STDIN)
}

#[test]
fn every_recorded_frame_has_its_answer() {
    let (frames, answers) = (recorded_lines(), lines(STDOUT));
    assert_eq!(frames.len(), answers.len());
    for (frame, wanted) in frames.iter().zip(answers) {
        let given = answer_line_at(frame, LIMIT_PROGRAM);
        assert_eq!(shown(&given), shown(wanted), "{}", shown(frame));
    }
    let read = |layout| {
        let inputs = frames.iter().filter_map(|frame| Input::of_line(frame));
        inputs.filter(|input| input.layout == layout).count()
    };
    let [narrow, wide] = Layout::ALL.map(read);
    let count = frames.len();
    println!("{count} recorded lines, {narrow} of them narrow frames and {wide} wide ones");
    assert!(narrow > 10_000 && wide > 100);
}

#[test]
fn a_list_has_its_mask() {
    let text = Text::of("d0-d2/sp");
    for layout in Layout::ALL {
        let mut input = Input::new(layout, &text.line, &text.list(layout), 0, 255);
        let answer = input.read().unwrap();
        let operand = answer.operand().unwrap();
        assert_eq!((operand.record[0], operand.mask), (14, 0x8007));
        assert_eq!(operand.record.len(), layout.sizes().operand);
        assert_eq!(
            (answer.cursor(), answer.nodes(), answer.diagnostics()),
            (5, 2, 0)
        );
    }
}
