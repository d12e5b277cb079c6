//! What a port of the Rust gets wrong first, and the choices that the records leave.

mod common;

use common::{read, read_marked, read_tokens, NO_MARK};
use frames::layout::Layout;
use frames::records::{DiagnosticRecord, NodeRecord};
use frames::tokens::TokenRecord;

const fn token(kind: u8, detail: u8, start: usize, end: usize) -> TokenRecord {
    TokenRecord::new(kind, detail, start, end)
}

#[test]
fn depth_is_tested_before_the_token() {
    let reading = read(&"-".repeat(64));
    assert_eq!((reading.form(), reading.kinds()), (0, vec![6]));
    assert_eq!(reading.span(0), (64, 64));
}

#[test]
fn diagnostics_come_in_the_order_in_which_they_are_raised() {
    let twice = read("++5");
    assert_eq!(twice.kinds(), [13, 13]);
    assert_eq!((twice.span(0), twice.span(1)), ((1, 2), (0, 1)));
    assert_eq!((twice.text(0), twice.text(1)), ((2, 3), (2, 3)));
    assert_eq!(read("+(").kinds(), [12, 13]);
    assert_eq!(read("1+(2*").kinds(), [12, 5]);
}

#[test]
fn only_outer_levels_read_on_behind_a_failed_side() {
    let stopped = read("1*/3");
    assert_eq!((stopped.form(), stopped.cursor), (13, 2));
    assert_eq!(stopped.tree(), "1");
    let displaced = read("4+d0(a0)");
    assert_eq!((displaced.form(), displaced.kinds()), (8, vec![11]));
    let sized = read("1+d0.w");
    assert_eq!((sized.form(), sized.operand().size), (13, 2));
}

#[test]
fn spans_are_not_first_to_last_token() {
    let open = read("1+");
    assert_eq!(open.operand().span, [0, 1]);
    assert_eq!(open.cursor, 2);
    let plus = read("+5");
    assert_eq!(plus.operand().span, [0, 2]);
    assert_eq!(plus.root().span, [1, 2]);
    assert_eq!(read("(+name)").spans_of_root(), ([0, 7], [2, 6]));
}

#[test]
fn a_minus_a_parenthesis_and_a_register_are_a_predecrement() {
    assert_eq!(read("-(a0+4)").malformed(), (4, 3));
    assert_eq!(read("-(d0)").malformed(), (4, 2));
    assert_eq!(read("-(1)").form(), 13);
    let cut = read("-(a0,");
    assert_eq!((cut.malformed(), cut.cursor), ((4, 3), 3));
}

#[test]
fn what_the_end_of_the_list_does_to_an_open_parenthesis() {
    assert_eq!(read("(a0").malformed(), (2, 3));
    assert_eq!(read("(d0").malformed(), (2, 2));
    assert_eq!(read("(za0").kinds(), [5]);
    assert_eq!(read("(a0]").kinds(), [11]);
    assert_eq!(read("(1").kinds(), [5]);
    assert_eq!(read("(1]").kinds(), [8]);
    assert_eq!(read("1+(2]").kinds(), [5]);
}

#[test]
fn an_error_token_is_stepped_over_as_a_term_only() {
    let term = read("1+?");
    assert_eq!((term.form(), term.cursor), (13, 3));
    assert!(term.kinds().is_empty());
    let behind = read("(1?");
    assert_eq!((behind.form(), behind.cursor), (0, 2));
    assert!(behind.kinds().is_empty());
}

#[test]
fn a_too_large_scale_is_said_before_the_scale_is() {
    assert_eq!(read("(a0,d0*99999999999999999999)").kinds(), [1, 7]);
}

#[test]
fn where_a_register_is_wanted_and_none_stands() {
    let list = read("d0/5");
    assert_eq!((list.form(), list.cursor, list.kinds()), (0, 2, vec![9]));
    let index = read("(a0,5)");
    assert_eq!((index.cursor, index.malformed()), (4, (6, 6)));
    let suppressed = read("(za0,5)");
    assert_eq!((suppressed.cursor, suppressed.malformed()), (2, (6, 3)));
    let bracket = read("([a0,5])");
    assert_eq!((bracket.cursor, bracket.malformed()), (3, (9, 8)));
}

#[test]
fn suppressed_names() {
    assert_eq!(read("(zsp)").operand().base, 0x1f);
    assert_eq!(read("(zpc)").operand().base, 0x21);
    let outer = read("([a0],zpc)");
    assert_eq!(outer.form(), 12);
    assert_eq!(outer.operand().outer_node, Some(0));
    assert_eq!(outer.records.nodes[0].kind, 3);
    assert_eq!(read("zd0").form(), 13);
    assert_eq!(read("pc").kinds(), [11]);
}

#[test]
fn a_local_name_is_never_reserved() {
    let reading = read_tokens("d0", &[token(1, 0, 0, 2)], 0, NO_MARK);
    assert_eq!((reading.form(), reading.root().kind), (13, 3));
}

#[test]
fn the_mark_is_for_suppressed_names_alone() {
    assert_eq!(read("(za0)").form(), 12);
    assert_eq!(read_marked("(za0)", 0, 1).form(), 13);
    assert_eq!(read_marked("(za0)", 0, 3).form(), 12);
    assert_eq!(read_marked("(a0)", 0, 1).form(), 5);
}

#[test]
fn odd_suffixes_and_literals() {
    let suffix = read_tokens("1xw", &[token(2, 0, 0, 1), token(4, 0, 1, 3)], 0, NO_MARK);
    assert_eq!(suffix.operand().size, 2);
    let literal = read_tokens("abca", &[token(3, 0, 0, 4)], 0, NO_MARK);
    let root = literal.root();
    assert_eq!((root.kind, root.left, root.right), (2, None, None));
    assert_eq!(literal.spans_of_root(), ([0, 4], [0, 4]));
}

#[test]
fn a_sized_displacement_needs_its_comma() {
    let cut = read("(1.w");
    assert_eq!((cut.form(), cut.cursor), (0, 2));
    assert_eq!(read("(1.w,a0)").form(), 12);
}

#[test]
fn a_leading_comma_expects_an_operand() {
    assert_eq!(read(",").kinds(), [4]);
    assert_eq!(read(",").cursor, 0);
}

// -- the records, where document 01 leaves a choice ------------------------------

#[test]
fn kind_9_holds_the_sign_it_follows() {
    let minus = read("d0-");
    let bytes = [9, 0, 0x2d, 3, 3, 0, 0, 0, 0, 0];
    assert_eq!(
        minus.diagnostic(0),
        DiagnosticRecord::of(Layout::Narrow, &bytes)
    );
    let slash = read("d0/1");
    let bytes = [9, 0, 0x2f, 3, 4, 0, 0, 0, 0, 0];
    assert_eq!(
        slash.diagnostic(0),
        DiagnosticRecord::of(Layout::Narrow, &bytes)
    );
}

#[test]
fn kind_2_quotes_behind_the_first_byte() {
    let unknown = read("(1.q,a0)");
    assert_eq!((unknown.form(), unknown.kinds()), (12, vec![2]));
    assert_eq!(unknown.operand().size, 0);
    assert_eq!((unknown.span(0), unknown.text(0)), ((2, 4), (3, 4)));
    let lone = read("1.");
    assert_eq!((lone.span(0), lone.text(0)), ((1, 2), (2, 2)));
    assert_eq!(lone.operand().span, [0, 2]);
}

#[test]
fn kind_3_quotes_from_what_precedes() {
    assert_eq!(read("(name).length").text(0), (0, 13));
    assert_eq!(read("(a0,d1.long)").text(0), (4, 11));
    assert_eq!(read("1+name.length").text(0), (0, 13));
}

#[test]
fn kinds_1_8_and_11_quote_their_token() {
    for text in ["99999999999999999999", "]", "pc"] {
        let reading = read(text);
        assert_eq!(reading.text(0), reading.span(0), "{text}");
    }
    let empty = read_tokens("", &[token(26, 0, 0, 0)], 0, NO_MARK);
    assert_eq!((empty.kinds(), empty.text(0)), (vec![8], (0, 0)));
}

#[test]
fn kind_7_quotes_the_register_that_is_none() {
    assert_eq!(read("4(name)").text(0), (2, 6));
    assert_eq!(read("-(d0)").text(0), (2, 4));
    // An empty token behind a longer one that ends at the same place.
    let tokens = [token(2, 0, 0, 1), token(7, 0, 1, 2), token(29, 0, 2, 2)];
    let empty = read_tokens("1(", &tokens, 0, NO_MARK);
    assert_eq!((empty.malformed(), empty.text(0)), ((5, 2), (2, 2)));
}

#[test]
fn kind_12_quotes_what_it_follows() {
    for (text, span, quoted) in [
        ("#", (1, 1), (0, 1)),
        ("(", (1, 1), (0, 1)),
        ("1<<", (3, 3), (1, 3)),
        ("~", (1, 1), (0, 1)),
        ("1+()", (3, 3), (2, 3)),
    ] {
        let reading = read(text);
        assert_eq!(reading.kinds(), [12], "{text}");
        assert_eq!((reading.span(0), reading.text(0)), (span, quoted), "{text}");
    }
}

#[test]
fn kind_13_quotes_the_term_or_nothing() {
    assert_eq!(read("+").text(0), (0, 0));
    assert_eq!(read("+?").text(0), (0, 0));
    assert_eq!(read("+(1+2)").text(0), (1, 6));
    assert_eq!(read("+-1*2").text(0), (1, 3));
    let sum = read("(1)+(+(+x))");
    assert_eq!(sum.kinds(), [13, 13]);
    assert_eq!((sum.text(0), sum.text(1)), ((8, 9), (6, 10)));
}

#[test]
fn related_is_the_opening_parenthesis() {
    assert_eq!(read("4(a0").related(0), Some((1, 2)));
    assert_eq!(read("4(").malformed(), (5, 5));
    assert_eq!(read("4(").related(0), Some((1, 2)));
    assert_eq!(read("([1").malformed(), (9, 8));
    assert_eq!(read("([1").related(0), Some((0, 1)));
    assert_eq!(read("(pc)").related(0), None);
}

#[test]
fn each_problem_has_its_number() {
    let rows = [
        ("#1.w", (1, 1)),
        ("(d0,d1)", (2, 2)),
        ("(a0", (2, 3)),
        ("(pc)", (7, 4)),
        ("(1,", (5, 5)),
        ("(a0,1)", (6, 6)),
        ("(pc,d0*3)", (8, 7)),
        ("([a0", (9, 8)),
        ("([a0,d0],d1)", (9, 9)),
        ("([a0],)", (9, 10)),
        ("([1,])", (9, 11)),
    ];
    for (text, wanted) in rows {
        assert_eq!(read(text).malformed(), wanted, "{text}");
    }
}

#[test]
fn kind_10_holds_mask_indices() {
    assert_eq!(read("sp-d0").text(0), (15, 0));
}

#[test]
fn a_long_immediate() {
    let reading = read("#1.l");
    assert_eq!(reading.operand().size, 0);
    assert_eq!(reading.operand().special_or_long, 1);
}

#[test]
fn an_index_has_two_spans() {
    let scaled = read("(a0,d1.w*4)");
    assert_eq!(scaled.form(), 9);
    assert_eq!(scaled.operand().index_register_span, [4, 6]);
    assert_eq!(scaled.operand().index_span, [4, 10]);
    assert_eq!(scaled.operand().index_scale, 4);
    let suppressed = read("(a0,za1)");
    assert_eq!(suppressed.form(), 12);
    assert_eq!(suppressed.operand().index, 9);
    assert_eq!(suppressed.operand().index_suppressed, 1);
    assert_eq!(suppressed.operand().index_register_span, [4, 7]);
}

#[test]
fn bases_that_are_absent_or_have_no_span() {
    for text in ["#1", "sr", "1", "d0/d1", "(d0)"] {
        assert_eq!(read(text).operand().base, 255, "{text}");
    }
    let pc = read("1(pc)");
    assert_eq!((pc.form(), pc.operand().base), (10, 0x20));
    assert_eq!(pc.operand().base_span, [0, 0]);
}

#[test]
fn nodes_of_lists_and_trees() {
    let list = read("d0-d1/a0");
    assert_eq!(list.operand().node, Some(0));
    let node = |bytes: [u8; 14]| NodeRecord::of(Layout::Narrow, &bytes);
    assert_eq!(
        list.records.nodes,
        [
            node([8, 0, 0, 1, 0, 5, 0, 2, 3, 5, 0, 0, 0, 0]),
            node([7, 0, 8, 8, 6, 8, 6, 8, 6, 8, 0, 0, 0, 0]),
        ]
    );
    let both = read("([1,a0],-2)");
    assert_eq!(both.operand().node, Some(0));
    assert_eq!(both.operand().outer_node, Some(2));
    let minus = both.records.nodes[2];
    assert_eq!((minus.kind, minus.detail), (5, 0));
    assert_eq!((minus.left, minus.right), (Some(1), None));
}

#[test]
fn the_cursor_is_a_place_of_the_list() {
    let reading = read_marked("d0,d1", 2, NO_MARK);
    assert_eq!((reading.form(), reading.cursor), (2, 3));
}

#[test]
fn the_first_parenthesis_widens_nothing_before_another() {
    let reading = read("(name)(a0)");
    assert_eq!(reading.form(), 8);
    assert_eq!(reading.spans_of_root(), ([1, 5], [1, 5]));
}
