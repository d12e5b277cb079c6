//! What holds of every reading, on generated frames.

use frames::answer::Answer;
use frames::frame::{Frame, FrameBytes};
use frames::generate::input_line_at;
use frames::layout::Layout;
use frames::records::{NodeRecord, Records};
use frames::reference::answer_line_at;

/// The nesting limits that the tests go through.
const LIMITS: [usize; 6] = [1, 2, 3, 64, 127, 128];

/// The readings of generated frames: the limit, the frame, the cursor and the records.
fn for_each_reading(count: u64, check: impl Fn(usize, &Frame, usize, &Records)) {
    for limit in LIMITS {
        for number in 0..count {
            let line = input_line_at(11, number, limit);
            let answer = answer_line_at(&line, limit);
            let (layout, parsed) = Answer::of_line(&answer).expect("an answer");
            assert_eq!(layout, Layout::of_line(&line).0);
            assert_eq!(parsed.to_line(layout), answer);
            if let Answer::Reading { cursor, records } = parsed {
                let bytes = FrameBytes::of_line(&line).expect("a frame was read");
                let frame = bytes.frame().expect("a frame");
                check(limit, &frame, cursor, &records);
            }
        }
    }
}

/// The children of a tree's node.
fn children(node: &NodeRecord) -> Vec<usize> {
    match node.kind {
        5 | 6 => [node.left, node.right].into_iter().flatten().collect(),
        _ => Vec::new(),
    }
}

#[test]
fn bounds_of_every_reading() {
    for_each_reading(20_000, |_, frame, cursor, records| {
        assert!(frame.start <= cursor && cursor <= frame.count());
        let consumed = cursor - frame.start;
        let none = usize::from(records.operand.is_none());
        assert!(records.nodes.len() <= consumed);
        assert!(records.diagnostics.len() <= consumed + none);
        assert!(records.operand.is_some() || records.nodes.is_empty());
        for (number, node) in records.nodes.iter().enumerate() {
            assert!(children(node).iter().all(|child| *child < number));
        }
    });
}

/// The answer depends on the places from the start through the cursor, and one more where there
/// is no operand: what stands further on may be cut off.
#[test]
fn what_lies_behind_the_cursor_does_not_count() {
    for_each_reading(10_000, |limit, frame, cursor, records| {
        let further = usize::from(records.operand.is_none());
        let kept = (cursor + 1 + further).min(frame.count());
        let cut = Frame {
            list: &frame.list[..kept * frame.layout.token_bytes()],
            ..*frame
        };
        let answer = Answer::of_line(&answer_line_at(&cut.to_line(), limit));
        let records = records.clone();
        let reading = Answer::Reading { cursor, records };
        assert_eq!(answer, Ok((frame.layout, reading)));
    });
}
