//! Each refusal at its boundary, in both layouts; `common` sees that none writes a byte.

use crate::common::Input;
use crate::text::{list, Token};
use sagdrif::Layout;
use sagdrif::Refusal::{self, *};

const ZERO: Token = [0, 0, 0, 2];

fn refusal(input: &mut Input) -> Option<Refusal> {
    input.read().err()
}

fn refused(layout: Layout, line: &[u8], tokens: &[u8]) -> Option<Refusal> {
    refusal(&mut Input::new(layout, line, tokens, 0, 0))
}

fn d0(layout: Layout) -> Input {
    Input::new(layout, b"d0", &list(layout, &[ZERO]), 0, 255)
}

#[test]
fn lines() {
    for layout in Layout::ALL {
        let most = layout.sizes().line_most;
        assert_eq!(refused(layout, &vec![b'a'; most], &[]), None);
        assert_eq!(refused(layout, &vec![b'a'; most + 1], &[]), Some(LongLine));
        for byte in 0..=255 {
            let wanted = (!(0x20..=0x7e).contains(&byte)).then_some(ForeignByte);
            assert_eq!(refused(layout, &[b'd', byte], &[]), wanted);
        }
        let mut line = vec![b'a'; most];
        line[most - 1] = 0x1f;
        assert_eq!(refused(layout, &line, &[]), Some(ForeignByte));
    }
}

#[test]
fn lists() {
    for layout in Layout::ALL {
        // An empty comment at the line's end is a good token as often as one likes.
        let tokens = |count: usize| list(layout, &vec![[27, 0, 2, 2]; count]);
        let most = layout.sizes().tokens_most;
        assert_eq!(refused(layout, b"d0", &tokens(most)), None);
        assert_eq!(refused(layout, b"d0", &tokens(most + 1)), Some(BadList));
        let one = list(layout, &[ZERO]);
        for length in 1..one.len() {
            assert_eq!(refused(layout, b"d0", &one[..length]), Some(BadList));
        }
    }
}

#[test]
fn tokens() {
    let bad: [Token; 7] = [
        [30, 0, 0, 2],
        [0, 1, 0, 2],
        [0, 0, 2, 1],
        [0, 0, 0, 3],
        [2, 1, 0, 2],
        [0, 0, 1, 1],
        [5, 0, 0, 1],
    ];
    for layout in Layout::ALL {
        for token in bad {
            let given = refused(layout, b"d0", &list(layout, &[token]));
            assert_eq!(given, Some(BadToken), "{layout:?} {token:?}");
        }
        let overlapping = list(layout, &[ZERO, [0, 0, 1, 2]]);
        assert_eq!(refused(layout, b"d0", &overlapping), Some(BadToken));
        let most = layout.sizes().line_most;
        let line = vec![b'a'; most];
        for token in [[0, 0, 0, most], [0, 0, most - 1, most], [28, 0, most, most]] {
            assert_eq!(refused(layout, &line, &list(layout, &[token])), None);
        }
    }
}

/// Offsets whose low bytes alone would be good ones.
#[test]
fn offsets_of_two_bytes() {
    let bad: [&[Token]; 6] = [
        &[[0, 0, 0, 256 + 2]],
        &[[0, 0, 256, 256 + 2]],
        &[[0, 0, 256, 2]],
        &[[0, 0, 0, 65535]],
        &[[28, 0, 65535, 65535]],
        &[[0, 0, 0, 1], [0, 0, 1, 0x1002]],
    ];
    for tokens in bad {
        let given = refused(Layout::Wide, b"d0", &list(Layout::Wide, tokens));
        assert_eq!(given, Some(BadToken), "{tokens:?}");
    }
    let line = [b'a'; 600];
    for (tokens, wanted) in [
        ([[0, 0, 0, 300], [0, 0, 300, 600]], None),
        ([[0, 0, 0, 300], [0, 0, 299, 600]], Some(BadToken)),
        ([[0, 0, 0, 300], [0, 0, 44, 600]], Some(BadToken)),
        ([[0, 0, 255, 256], [0, 0, 256, 257]], None),
        ([[0, 0, 256, 255], [0, 0, 256, 257]], Some(BadToken)),
    ] {
        let given = refused(Layout::Wide, &line, &list(Layout::Wide, &tokens));
        assert_eq!(given, wanted, "{tokens:?}");
    }
}

#[test]
fn starts() {
    for (start, wanted) in [
        (0, None),
        (1, None),
        (2, Some(BadStart)),
        (256, Some(BadStart)),
        (1 << 16, Some(BadStart)),
        (usize::MAX, Some(BadStart)),
    ] {
        for layout in Layout::ALL {
            let mut input = d0(layout);
            input.start = start;
            assert_eq!(refusal(&mut input), wanted, "{layout:?} start {start}");
        }
    }
}

#[test]
fn node_stores() {
    for layout in Layout::ALL {
        let least = layout.sizes().nodes_bytes;
        for (length, wanted) in [
            (least + 1, None),
            (least, None),
            (least - 1, Some(ShortNodes)),
            (0, Some(ShortNodes)),
        ] {
            let mut input = d0(layout);
            input.nodes = vec![7; length];
            assert_eq!(refusal(&mut input), wanted, "{layout:?} {length} bytes");
        }
    }
}

#[test]
fn diagnostic_lists() {
    for layout in Layout::ALL {
        let (one, free) = (layout.sizes().diagnostic, layout.sizes().diagnostics_free);
        let least = one * free;
        let cases = [
            (least, 0, None),
            (least + one - 1, 0, None),
            (least - 1, 0, Some(ShortDiagnostics)),
            (least - one, 0, Some(ShortDiagnostics)),
            (least, 1, Some(ShortDiagnostics)),
            (least + one, 1, None),
            (least + 89 * one, 89, None),
            (least + 89 * one, 90, Some(ShortDiagnostics)),
            (least, usize::MAX, Some(ShortDiagnostics)),
            (least, usize::MAX - free + 1, Some(ShortDiagnostics)),
            (0, 0, Some(ShortDiagnostics)),
        ];
        for (length, used, wanted) in cases {
            let mut input = d0(layout);
            input.diagnostics = vec![7; length];
            input.used = used;
            let given = refusal(&mut input);
            assert_eq!(given, wanted, "{layout:?} {length} bytes, {used} used");
        }
    }
}

#[test]
fn limits() {
    // Behind the lawful ones, some that fewer bits would turn into a lawful one.
    let cases = [
        (1, None),
        (64, None),
        (128, None),
        (0, Some(BadLimit)),
        (129, Some(BadLimit)),
        (usize::MAX, Some(BadLimit)),
        (256 + 64, Some(BadLimit)),
        (1 << 16 | 64, Some(BadLimit)),
        (1 << 32 | 64, Some(BadLimit)),
        (1 << 63 | 64, Some(BadLimit)),
    ];
    for (limit, wanted) in cases {
        for layout in Layout::ALL {
            let given = refusal(&mut d0(layout).at_limit(limit));
            assert_eq!(given, wanted, "{layout:?} limit {limit}");
        }
    }
}

/// The first that applies is given, whatever else is wrong.
#[test]
fn in_their_order() {
    for layout in Layout::ALL {
        let sizes = layout.sizes();
        let list_bytes = sizes.token * (sizes.tokens_most + 1) + 1;
        let (line, tokens) = (vec![200; sizes.line_most + 1], vec![99; list_bytes]);
        let mut input = Input::new(layout, &line, &tokens, usize::MAX, 0).at_limit(0);
        input.nodes.clear();
        input.diagnostics.clear();
        input.used = usize::MAX;
        assert_eq!(refusal(&mut input), Some(LongLine));
        input.line.truncate(2);
        assert_eq!(refusal(&mut input), Some(ForeignByte));
        input.line = b"d0".to_vec();
        assert_eq!(refusal(&mut input), Some(BadList));
        input.tokens.truncate(sizes.token);
        assert_eq!(refusal(&mut input), Some(BadToken));
        input.tokens = list(layout, &[ZERO]);
        assert_eq!(refusal(&mut input), Some(BadStart));
        input.start = 0;
        assert_eq!(refusal(&mut input), Some(ShortNodes));
        input.nodes = vec![0; sizes.nodes_bytes];
        assert_eq!(refusal(&mut input), Some(ShortDiagnostics));
        input.diagnostics = vec![0; sizes.diagnostic * sizes.diagnostics_free];
        assert_eq!(refusal(&mut input), Some(ShortDiagnostics));
        input.used = 0;
        assert_eq!(refusal(&mut input), Some(BadLimit));
        input.limit = 1;
        assert_eq!(refusal(&mut input), None);
    }
}
