//! The nesting limit as a setting: every limit from 1 to 128.

mod common;

use common::{read_at, Read};
use frames::answer::Answer;
use frames::generate::input_line_at;
use frames::random::Random;
use frames::reference::{answer_line_at, Reference};
use frames::refusal::LIMITS;

/// As many groups as 255 tokens close.
const MOST_GROUPS: usize = 127;

fn minus_signs(limit: usize, count: usize) -> Read {
    read_at(&("-".repeat(count) + "1"), limit)
}

/// Groups around a term. Those that do not fit in the line are left open.
fn groups(limit: usize, before: &str, count: usize) -> Read {
    let mut text = format!("{before}{}1{}", "(".repeat(count), ")".repeat(count));
    text.truncate(255);
    read_at(&text, limit)
}

fn is_read(reading: Read, form: u8) -> bool {
    reading.form() == form && reading.kinds().is_empty()
}

fn is_too_deep(reading: Read) -> bool {
    reading.form() == 0 && reading.kinds() == [6]
}

#[test]
fn minus_signs_up_to_every_limit() {
    for limit in LIMITS {
        assert!(is_read(minus_signs(limit, limit - 1), 13), "{limit}");
        assert!(is_too_deep(minus_signs(limit, limit)), "{limit}");
    }
}

#[test]
fn groups_up_to_every_limit() {
    for limit in LIMITS {
        let held = limit.min(MOST_GROUPS);
        assert!(is_read(groups(limit, "", held), 13), "{limit}");
        assert!(is_too_deep(groups(limit, "", limit + 1)), "{limit}");
        assert!(is_read(groups(limit, "#", held - 1), 1), "{limit}");
        assert!(is_too_deep(groups(limit, "#", limit)), "{limit}");
    }
}

fn raises_nesting_too_deep(answer: &[u8]) -> bool {
    match Answer::of_line(answer).expect("an answer").1 {
        Answer::Reading { records, .. } => records.diagnostics.iter().any(|one| one.kind == 6),
        Answer::Refused(_) => false,
    }
}

/// "A reading that raises no NestingTooDeep at one limit has the same answer at every higher one."
#[test]
fn what_is_not_too_deep_stays_at_every_higher_limit() {
    let (mut same, mut too_deep) = (0, 0);
    for limit in LIMITS {
        let mut reference = Reference::at_limit(limit);
        for number in 0..1000 {
            let mut random = Random::new(limit as u64, number);
            let higher = random.between(limit, *LIMITS.end());
            let line = input_line_at(17, number, random.pick(&[limit, higher]));
            let mut answer = Vec::new();
            reference.answer(&line, &mut answer);
            if raises_nesting_too_deep(&answer) {
                too_deep += 1;
                continue;
            }
            same += 1;
            let again = answer_line_at(&line, higher);
            assert_eq!(again, answer, "{}", String::from_utf8_lossy(&line));
        }
    }
    println!("{same} readings are the same, {too_deep} were too deep");
    assert!(same > 100_000 && too_deep > 1_000, "{same} {too_deep}");
}
