//! docs/FORMAT.md: its tables have the names that the programs use, its examples the reference's answers.

mod common;

use common::frame_of;
use frames::coverage::REACHABLE;
use frames::layout::Layout;
use frames::names;
use frames::records::{OperandRecord, NOT_AN_ADDRESS_REGISTER, PROBLEMS};
use frames::reference::answer_line;
use frames::tokens::{kind_name, sign, KINDS};
use s68k::assembler::diagnostics::OperandShape;

const PAGE: &str = include_str!("../../../docs/FORMAT.md");

/// The shapes in the order of `OperandShape`.
const SHAPES: [OperandShape; 14] = [
    OperandShape::Immediate,
    OperandShape::Indirect,
    OperandShape::Postincrement,
    OperandShape::Predecrement,
    OperandShape::Displacement,
    OperandShape::Index,
    OperandShape::PcDisplacement,
    OperandShape::PcIndex,
    OperandShape::MemoryIndirect,
    OperandShape::Absolute,
    OperandShape::RegisterList,
    OperandShape::GroupedExpression,
    OperandShape::RegisterPair,
    OperandShape::BitField,
];

/// The page as it is read, without the signs of its layout.
fn plain() -> String {
    PAGE.replace('`', "").replace("\\|", "|")
}

/// A line of an example: a frame or an answer, narrow or wide.
fn is_hex(line: &str) -> bool {
    let (_, digits) = Layout::of_line(line.trim().as_bytes());
    line.starts_with("    ") && digits.iter().all(u8::is_ascii_hexdigit)
}

/// Every word stands behind its number, in a cell of its own.
fn expect_rows<'a>(first: usize, words: impl IntoIterator<Item = &'a str>) {
    (first..)
        .zip(words)
        .for_each(|(number, word)| expect_row(number, word));
}

fn expect_row(number: usize, word: &str) {
    let row = format!("| {number} | {} |", word.replace('`', ""));
    assert!(plain().contains(&row), "{row}");
}

#[test]
fn the_tables_have_the_programs_names() {
    expect_rows(1, names::FORMS);
    expect_rows(1, names::DIAGNOSTICS);
    for (number, word) in names::REFUSALS {
        expect_row(number as usize, word);
    }
    expect_rows(1, names::NODES);
    expect_rows(1, names::SIZES);
    expect_rows(1, names::SPECIAL);
    for (number, text) in (1..).zip(PROBLEMS) {
        let quoting = number == usize::from(NOT_AN_ADDRESS_REGISTER);
        let text = if quoting {
            format!("(the token) {text}")
        } else {
            text.to_string()
        };
        expect_row(number, &text);
    }
}

#[test]
fn the_forms_have_their_examples() {
    let mut seen = 0;
    for (form, name) in (1..).zip(names::FORMS) {
        let head = format!("| {form} | {name} |");
        let row = PAGE.lines().find(|line| line.starts_with(&head));
        let cell = row.expect("a row").split('|').nth(5).expect("a cell");
        for text in cell.split('`').skip(1).step_by(2) {
            let answer = answer_line(&frame_of(Layout::Narrow, text));
            // an operand, its diagnostics and its form
            assert_eq!(&answer[..2], b"00", "{text}");
            assert_eq!(&answer[6..10], b"0000", "{text}");
            assert_eq!(&answer[10..12], format!("{form:02x}").as_bytes(), "{text}");
            seen += 1;
        }
    }
    assert_eq!(seen, 29);
}

#[test]
fn the_forms_are_the_first_operands_of_the_rust() {
    let source = include_str!("../../s68k/src/assembler/ast.rs");
    let (_, after) = source
        .split_once("pub enum Operand {\n")
        .expect("the operands");
    let variants = after
        .lines()
        .filter_map(|line| line.strip_prefix("    ")?.strip_suffix(" {"))
        .filter(|line| line.starts_with(char::is_uppercase));
    let page = plain();
    for ((form, name), variant) in (1..).zip(names::FORMS).zip(variants) {
        let row = format!("| {form} | {name} | {variant} |");
        assert!(page.contains(&row), "{row}");
    }
}

/// The parts of an operand's record as the page calls them, each with a change that it shows in.
const PARTS: [(&str, Change); 16] = [
    ("form", |record| record.form = 1),
    ("span", |record| record.span = NUMBERS),
    ("node", |record| record.node = Some(NUMBERS[0])),
    ("size", |record| record.size = 1),
    ("base", |record| record.base = 1),
    ("base's span", |record| record.base_span = NUMBERS),
    ("index register", |record| record.index = 1),
    ("index register's span", |record| {
        record.index_register_span = NUMBERS
    }),
    ("index size", |record| record.index_size = 1),
    ("index scale", |record| record.index_scale = 1),
    ("index suppressed", |record| record.index_suppressed = 1),
    ("index's span", |record| record.index_span = NUMBERS),
    ("indirection", |record| record.indirection = 1),
    ("outer node", |record| record.outer_node = Some(NUMBERS[0])),
    ("outer size", |record| record.outer_size = 1),
    ("special register, or long", |record| {
        record.special_or_long = 1
    }),
];

/// A change of one part.
type Change = fn(&mut OperandRecord);

/// Numbers of which every low byte shows.
const NUMBERS: [usize; 2] = [0x11, 0x22];

/// The places of a part in a record of a layout, as the page writes them: `3`, or `1, 2`, or
/// `1 to 4`. A wide number's high byte is the place behind its low one.
fn places(layout: Layout, change: Change) -> String {
    let zeros = vec![0; layout.operand_bytes()];
    let mut record = OperandRecord::of(layout, &zeros);
    change(&mut record);
    let mut bytes = Vec::new();
    record.push(layout, &mut bytes);
    let shown: Vec<usize> = (0..bytes.len()).filter(|at| bytes[*at] != 0).collect();
    let is_number = bytes[shown[0]] == NUMBERS[0] as u8;
    let high = if is_number {
        layout.number_bytes() - 1
    } else {
        0
    };
    let (first, last) = (shown[0], shown[shown.len() - 1] + high);
    match last - first {
        0 => format!("{first}"),
        1 => format!("{first}, {last}"),
        _ => format!("{first} to {last}"),
    }
}

/// Each part has its row: its narrow places alone, or behind them its wide ones in a column of
/// their own, where every row has them.
#[test]
fn the_operand_has_its_places() {
    let page = plain();
    let mut columns = Vec::new();
    for (part, change) in PARTS {
        let [narrow, wide] = Layout::BOTH.map(|layout| places(layout, change));
        let alone = page.contains(&format!("| {narrow} | {part} |"));
        let both = page.contains(&format!("| {narrow} | {wide} | {part} |"));
        assert!(alone || both, "| {narrow} | {wide} | {part} |");
        columns.push(both);
    }
    columns.dedup();
    assert_eq!(columns.len(), 1, "every row has the same columns");
}

#[test]
fn the_parts_have_the_papers_places() {
    let all = |layout| PARTS.map(|(_, change)| places(layout, change)).join("; ");
    let narrow = "0; 1, 2; 3; 4; 5; 6, 7; 8; 9, 10; 11; 12; 13; 14, 15; 16; 17; 18; 19";
    let wide =
        "0; 1 to 4; 5, 6; 7; 8; 9 to 12; 13; 14 to 17; 18; 19; 20; 21 to 24; 25; 26, 27; 28; 29";
    assert_eq!(all(Layout::Narrow), narrow);
    assert_eq!(all(Layout::Wide), wide);
}

#[test]
fn the_tokens_have_their_names_and_signs() {
    let page = plain();
    for kind in 0..KINDS as u8 {
        let name = kind_name(kind).expect("a kind");
        let text = sign(kind).map_or(String::new(), |sign| format!("{sign} |"));
        let row = format!("| {kind} | {name} | {text}");
        assert!(page.contains(&row), "{row}");
    }
}

#[test]
fn the_operators_have_their_numbers() {
    let page = plain();
    for (number, sign) in names::BINARY.iter().enumerate() {
        assert!(page.contains(&format!("{number} {sign}")), "{sign}");
    }
    assert!(page.contains("| 5 | unary | 0 -, 1 ~ |"));
}

#[test]
fn the_shapes_are_the_rusts_with_the_problems_that_occur() {
    let page = plain();
    for (number, shape) in (1..).zip(SHAPES) {
        let (name, words) = (format!("{shape:?}"), shape.description());
        let found = REACHABLE.iter().find(|row| row.0 == number);
        let problems: Vec<String> = found
            .map_or(&[][..], |row| row.1)
            .iter()
            .map(u8::to_string)
            .collect();
        let (example, problems) = (shape.example(), problems.join(", "));
        let row = format!("| {number} | {name} | {words} | {example} | {problems} |");
        assert!(page.contains(&row.replace("|  |", "| |")), "{row}");
    }
}

#[test]
fn the_examples_are_the_references() {
    let lines: Vec<&str> = PAGE.lines().collect();
    let examples = lines
        .windows(4)
        .filter(|four| is_hex(four[2]) && is_hex(four[3]));
    let mut seen = 0;
    for four in examples {
        let (frame, answer) = (four[2].trim(), four[3].trim());
        let text = four[0].split('`').nth(1).expect("a text in backquotes");
        let (layout, _) = Layout::of_line(frame.as_bytes());
        assert_eq!(frame_of(layout, text), frame.as_bytes(), "{text}");
        assert_eq!(answer_line(frame.as_bytes()), answer.as_bytes(), "{text}");
        seen += usize::from(layout == Layout::Narrow);
    }
    assert_eq!(seen, 4);
}

/// Byte by byte, the tables behind the examples are the frame and the answer, or the answer alone.
#[test]
fn the_examples_are_taken_apart_whole() {
    let (_, examples) = PAGE.split_once("## Examples").expect("the examples");
    let mut lines = examples.lines();
    let mut tables = 0;
    while let Some(frame) = lines.find(|line| is_hex(line)) {
        let answer = lines.next().expect("an answer").trim();
        let rows: Vec<&str> = lines
            .by_ref()
            .skip(1)
            .take_while(|line| line.starts_with('|'))
            .collect();
        let cells = rows.iter().skip(2).filter_map(|row| row.split('|').nth(1));
        let bytes: String = cells
            .flat_map(|cell| cell.split('`').skip(1).step_by(2))
            .collect();
        let both = format!("{}{answer}", frame.trim());
        if !rows.is_empty() {
            assert!(bytes == both || bytes == answer, "{bytes}");
            tables += usize::from(!answer.starts_with('w'));
        }
    }
    assert_eq!(tables, 3);
}
