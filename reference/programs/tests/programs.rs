//! The programs themselves: bad input, messages with places, exit statuses.

use frames::layout::Layout;
use frames::random::Random;
use std::io::Write;
use std::process::{Command, Output, Stdio};

const SAMPLE: &str = "053428613029040200000107000102000002040800040500ff";
const SAMPLE_ANSWER: &str =
    "00040100000800050000080204ff0000000000000000ff00000100ffff00010400000000000000";
const WIDE_SAMPLE: &str =
    "w0500342861302904000200000001000700010002000000020004000800040005000000ffff";
const WIDE_SAMPLE_ANSWER: &str = "w0004000100000008000005000000000802000400ff000000000000000000000000ffff00000100ffffffff000001000400000000000000";

/// Runs a program of this package on an input.
fn run(program: &str, arguments: &[&str], input: &[u8]) -> Output {
    let mut child = Command::new(program)
        .args(arguments)
        .stdin(Stdio::piped())
        .stdout(Stdio::piped())
        .stderr(Stdio::piped())
        .spawn()
        .expect("the program starts");
    let mut pipe = child.stdin.take().expect("a pipe");
    let input = input.to_vec();
    // A program that was called wrongly does not read, which is no fault of the test.
    let writer = std::thread::spawn(move || drop(pipe.write_all(&input)));
    let output = child.wait_with_output().expect("the program ends");
    writer.join().expect("the writing thread ends");
    output
}

fn reference(input: &[u8]) -> Output {
    run(env!("CARGO_BIN_EXE_reference"), &[], input)
}

fn text(bytes: &[u8]) -> String {
    String::from_utf8_lossy(bytes).into_owned()
}

/// How many lines an input has: one more than its line feeds where the last lacks its own.
fn line_count(input: &[u8]) -> usize {
    let feeds = input.iter().filter(|byte| **byte == b'\n').count();
    feeds + usize::from(input.last().is_some_and(|byte| *byte != b'\n'))
}

#[test]
fn the_reference_answers_the_sample() {
    for (sample, answer) in [(SAMPLE, SAMPLE_ANSWER), (WIDE_SAMPLE, WIDE_SAMPLE_ANSWER)] {
        for end in ["", "\n"] {
            let output = reference(format!("{sample}{end}").as_bytes());
            assert_eq!(text(&output.stdout), format!("{answer}\n"));
            assert!(output.status.success());
        }
    }
}

#[test]
fn the_reference_is_told_its_limit() {
    let at = |limit: &str, input: &[u8]| {
        let output = run(env!("CARGO_BIN_EXE_reference"), &["--limit", limit], input);
        assert!(output.status.success());
        text(&output.stdout)
    };
    // `-1`: the operand is the second open term.
    let minus = b"022d31020f0000010200010200ff";
    assert_eq!(at("1", minus), "010100010006000001020000000000\n");
    assert_eq!(at("2", minus), text(&reference(minus).stdout));
    for limit in ["0", "129", "18446744073709551615"] {
        assert_eq!(at(limit, SAMPLE.as_bytes()), "0212\n");
        assert_eq!(at(limit, b"01410001ff\n\n"), "0205\n0208\n");
        assert_eq!(at(limit, WIDE_SAMPLE.as_bytes()), "w0212\n");
        assert_eq!(at(limit, b"w010041000002000000\nw"), "w0205\nw0208\n");
    }
}

#[test]
fn generated_frames_without_a_limit_are_those_of_64() {
    let generate = |arguments: &[&str]| run(env!("CARGO_BIN_EXE_generate"), arguments, b"").stdout;
    let without = generate(&["3", "2000"]);
    assert!(generate(&["--limit", "64", "3", "2000"]) == without);
    assert!(generate(&["--limit", "65", "3", "2000"]) != without);
}

#[test]
fn lines_that_are_no_frames_are_refused() {
    assert_eq!(text(&reference(b"").stdout), "");
    assert_eq!(text(&reference(b"\n\n").stdout), "0208\n0208\n");
    for line in [
        format!("{SAMPLE}\r"),
        format!(" {SAMPLE}"),
        SAMPLE.to_uppercase(),
        SAMPLE[1..].to_string(),
        format!("{SAMPLE}00"),
        format!("{SAMPLE}\0"),
        WIDE_SAMPLE[1..].to_string(),
        WIDE_SAMPLE.replace('w', "W"),
        format!(" {WIDE_SAMPLE}"),
        format!("0{WIDE_SAMPLE}"),
    ] {
        assert_eq!(text(&reference(line.as_bytes()).stdout), "0208\n");
    }
}

#[test]
fn wide_lines_that_are_no_frames_are_refused_in_their_layout() {
    for line in [
        "w".to_string(),
        "w0".to_string(),
        format!("w{SAMPLE}"),
        format!("w{WIDE_SAMPLE}"),
        format!("{WIDE_SAMPLE}\r"),
        format!("{WIDE_SAMPLE}0"),
        format!("{WIDE_SAMPLE}00"),
        format!("{WIDE_SAMPLE}w"),
        WIDE_SAMPLE[..WIDE_SAMPLE.len() - 2].to_string(),
        WIDE_SAMPLE.replace("ffff", "FFFF"),
    ] {
        let given = text(&reference(line.as_bytes()).stdout);
        assert_eq!(given, "w0208\n", "{line}");
    }
}

#[test]
fn a_line_of_ten_megabytes_is_one_line() {
    for opening in ["", "w"] {
        let mut input = opening.as_bytes().to_vec();
        input.extend(vec![b'0'; 10_000_000]);
        assert_eq!(text(&reference(&input).stdout), format!("{opening}0208\n"));
        input.extend(format!("\n{SAMPLE}\n").as_bytes());
        let wanted = format!("{opening}0208\n{SAMPLE_ANSWER}\n");
        assert_eq!(text(&reference(&input).stdout), wanted);
    }
}

#[test]
fn any_bytes_have_an_answer_for_each_line() {
    let mut random = Random::new(1, 1);
    let input: Vec<u8> = (0..300_000).map(|_| random.draw() as u8).collect();
    let output = reference(&input);
    assert!(output.status.success());
    assert_eq!(line_count(&output.stdout), line_count(&input));
}

#[test]
fn texts_become_frames() {
    let program = env!("CARGO_BIN_EXE_frame");
    let output = run(program, &[], b"4(a0)");
    assert_eq!(text(&output.stdout), format!("{SAMPLE}\n"));
    let marked = run(program, &["--start", "1", "--mark", "2"], b"4(a0)\n");
    let wanted = SAMPLE.replace("00ff", "0102");
    assert_eq!(text(&marked.stdout), format!("{wanted}\n"));
    let empty = run(program, &[], b"\n");
    assert_eq!(text(&empty.stdout), "000000ff\n");
    let wide = run(program, &["--wide"], b"4(a0)\n\n");
    let wanted = format!("{WIDE_SAMPLE}\nw000000000000ffff\n");
    assert_eq!(text(&wide.stdout), wanted);
    let marked = run(program, &["--mark", "256", "--wide"], b"4(a0)");
    let wanted = WIDE_SAMPLE.replace("0000ffff", "00000001");
    assert_eq!(text(&marked.stdout), format!("{wanted}\n"));
    let blanks = run(program, &["--keep-whitespace"], b" 1");
    assert_eq!(
        text(&blanks.stdout),
        "022031021a00000102000102".to_string() + "00ff\n"
    );
}

#[test]
fn a_text_without_a_frame_is_named() {
    let input = [b"a\tb\n1\n".to_vec(), vec![b'1'; 300], b"\n\x80".to_vec()].concat();
    let output = run(env!("CARGO_BIN_EXE_frame"), &[], &input);
    assert_eq!(line_count(&output.stdout), 1);
    let messages = text(&output.stderr);
    assert!(messages.contains("line 1, column 2: byte 09"), "{messages}");
    assert!(
        messages.contains("line 3, column 256: a line has at most"),
        "{messages}"
    );
    assert!(messages.contains("line 4, column 1: byte 80"), "{messages}");
    assert_eq!(output.status.code(), Some(1));
    let input = [vec![b'1'; 4095], vec![b'1'; 4096], vec![b'-'; 1024]].join(&b'\n');
    let output = run(env!("CARGO_BIN_EXE_frame"), &["--wide"], &input);
    assert_eq!(line_count(&output.stdout), 1);
    let messages = text(&output.stderr);
    assert!(
        messages.contains("line 2, column 4096: a line"),
        "{messages}"
    );
    assert!(
        messages.contains("line 3, a list has at most 1023"),
        "{messages}"
    );
}

#[test]
fn answers_in_words() {
    let program = env!("CARGO_BIN_EXE_decode");
    let alone = run(program, &[], SAMPLE_ANSWER.as_bytes());
    assert!(text(&alone.stdout).contains("form                 8 displacement"));
    assert!(!text(&alone.stdout).contains("layout"));
    for (frame, answer) in [(SAMPLE, SAMPLE_ANSWER), (WIDE_SAMPLE, WIDE_SAMPLE_ANSWER)] {
        let pair = run(program, &[], format!("{frame} {answer}").as_bytes());
        assert!(text(&pair.stdout).contains("base span            2..4 `a0`"));
        assert!(pair.status.success());
    }
    let wide = run(program, &[], WIDE_SAMPLE_ANSWER.as_bytes());
    assert!(text(&wide.stdout).contains("layout               wide\n"));
}

#[test]
fn what_is_no_answer_is_named() {
    let input = format!("0208\n0x\n03\n{SAMPLE} 00\n");
    let output = run(env!("CARGO_BIN_EXE_decode"), &[], input.as_bytes());
    let messages = text(&output.stderr);
    assert!(messages.contains("line 2, column 2: `x`"), "{messages}");
    assert!(
        messages.contains("line 3, column 1: it begins with 03"),
        "{messages}"
    );
    assert!(
        messages.contains("line 4, in the answer behind column 51"),
        "{messages}"
    );
    assert_eq!(output.status.code(), Some(1));
}

#[test]
fn any_bytes_decode_without_a_crash() {
    let mut random = Random::new(2, 2);
    let mut input = Vec::new();
    for _ in 0..3000 {
        let layout = random.pick(&Layout::BOTH);
        let first = random.below(3);
        let (nodes, diagnostics) = (random.below(4), random.below(3));
        let mut bytes = vec![first as u8];
        layout.push_pair(&mut bytes, [0, nodes]);
        bytes.extend([diagnostics as u8, 0]);
        let operand = if first == 0 {
            layout.operand_bytes()
        } else {
            0
        };
        let rest = operand + layout.node_bytes() * nodes + layout.diagnostic_bytes() * diagnostics;
        bytes.extend((0..rest).map(|_| random.draw() as u8));
        input.extend(layout.opening());
        input.extend(frames::hex::encode(&bytes));
        input.push(b'\n');
    }
    let output = run(env!("CARGO_BIN_EXE_decode"), &[], &input);
    assert!(matches!(output.status.code(), Some(0 | 1)));
    let decoded = text(&output.stdout).matches("\nanswer").count();
    assert_eq!(decoded + line_count(&output.stderr), 3000);
}

#[test]
fn equal_programs_and_different_ones() {
    let (compare, reference) = (
        env!("CARGO_BIN_EXE_compare"),
        env!("CARGO_BIN_EXE_reference"),
    );
    let equal = run(compare, &[reference, reference, "1", "25000"], b"");
    assert_eq!(text(&equal.stdout), "25000 frames, no difference\n");
    assert_eq!(equal.status.code(), Some(0));
    let (one, two) = (
        format!("{reference} --limit 1"),
        format!("{reference} --limit 2"),
    );
    let limits = run(compare, &[&one, &two, "--limit", "1", "1", "1000"], b"");
    assert!(text(&limits.stdout).contains("NestingTooDeep"));
    assert_eq!(limits.status.code(), Some(1));
    let other = run(compare, &[reference, "cat", "1", "10"], b"");
    assert!(text(&other.stdout).contains("line 1 of the input"));
    assert_eq!(other.status.code(), Some(1));
    let crash = run(compare, &[reference, "false", "1", "10"], b"");
    assert!(text(&crash.stdout).contains("B failed on line 1: it ended with exit status: 1"));
    assert_eq!(crash.status.code(), Some(1));
}

#[test]
fn layouts_can_be_chosen() {
    let generate = |layout: &[&str]| {
        let arguments = [layout, &["3", "2000"]].concat();
        run(env!("CARGO_BIN_EXE_generate"), &arguments, b"").stdout
    };
    let both = generate(&[]);
    assert!(generate(&["--layout", "both"]) == both);
    let narrow = generate(&["--layout", "narrow"]);
    let wide = generate(&["--layout", "wide"]);
    let opened = |lines: &[u8]| {
        let lines = lines.split(|byte| *byte == b'\n');
        lines.filter(|line| line.starts_with(b"w")).count()
    };
    assert!((400..600).contains(&opened(&both)), "{}", opened(&both));
    assert!(opened(&narrow) < 10 && opened(&wide) > 1900);
}

#[test]
fn pairs_are_read_alike() {
    let pairs = env!("CARGO_BIN_EXE_pairs");
    let reference = env!("CARGO_BIN_EXE_reference");
    let alike = run(pairs, &[reference, "1", "12000"], b"");
    assert_eq!(text(&alike.stdout), "12000 pairs, no difference\n");
    assert_eq!(alike.status.code(), Some(0));
    let limited = format!("{reference} --limit 2");
    let alike = run(pairs, &[&limited, "--limit", "2", "1", "1000"], b"");
    assert_eq!(alike.status.code(), Some(0));
    let other = run(pairs, &["cat", "1", "10"], b"");
    assert!(text(&other.stdout).starts_with("pair 1: the narrow answer is none"));
    assert_eq!(other.status.code(), Some(1));
}

#[test]
fn wrong_calls_have_a_usage_message() {
    for (program, arguments) in [
        (env!("CARGO_BIN_EXE_reference"), &["x"][..]),
        (env!("CARGO_BIN_EXE_reference"), &["--limit"]),
        (env!("CARGO_BIN_EXE_reference"), &["--limit", "-1"]),
        (env!("CARGO_BIN_EXE_frame"), &["--start", "256"]),
        (env!("CARGO_BIN_EXE_frame"), &["--mark"]),
        (env!("CARGO_BIN_EXE_frame"), &["--wide", "--mark", "65536"]),
        (env!("CARGO_BIN_EXE_pairs"), &["cat", "1"]),
        (env!("CARGO_BIN_EXE_generate"), &["--layout", "both", "1"]),
        (
            env!("CARGO_BIN_EXE_generate"),
            &["--layout", "broad", "1", "1"],
        ),
        (env!("CARGO_BIN_EXE_generate"), &["1"]),
        (env!("CARGO_BIN_EXE_generate"), &["1", "-3"]),
        (
            env!("CARGO_BIN_EXE_generate"),
            &["--limit", "129", "1", "1"],
        ),
        (env!("CARGO_BIN_EXE_compare"), &["a", "b", "c", "d"]),
        (
            env!("CARGO_BIN_EXE_compare"),
            &["a", "b", "--limit", "0", "1", "1"],
        ),
        (
            env!("CARGO_BIN_EXE_spelling"),
            &["--limit", "0", "frames", "1", "1"],
        ),
        (env!("CARGO_BIN_EXE_decode"), &["x"]),
    ] {
        let output = run(program, arguments, b"");
        assert_eq!(output.status.code(), Some(2), "{program}");
        assert!(text(&output.stderr).contains("usage: "), "{program}");
    }
}

#[test]
fn a_closed_output_ends_a_program_quietly() {
    let mut child = Command::new(env!("CARGO_BIN_EXE_generate"))
        .args(["1", "1000000"])
        .stdout(Stdio::piped())
        .stderr(Stdio::piped())
        .spawn()
        .expect("the program starts");
    drop(child.stdout.take());
    let output = child.wait_with_output().expect("the program ends");
    assert!(output.status.success());
    assert_eq!(text(&output.stderr), "");
}
