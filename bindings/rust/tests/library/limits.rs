//! Every nesting limit, beside the Rust at that limit, in both layouts.

use crate::common::{answer_line_at, shown, Input};
use frames::generate::input_line_at;
use frames::random::Random;
use frames::reference::Reference;
use frames::trial_lines::rows;
use sagdrif::{Answer, Layout, LIMIT_MOST, LIMIT_PROGRAM};

#[test]
fn every_trial_line_has_its_answer() {
    for row in rows() {
        let limit = row.limit.unwrap_or(LIMIT_PROGRAM);
        let given = answer_line_at(row.frame.as_bytes(), limit);
        assert_eq!(given, row.answer.as_bytes(), "{}", row.words);
    }
}

/// A line, and if it is a narrow frame the same one in the wide layout.
fn in_both(line: Vec<u8>) -> Vec<Vec<u8>> {
    let narrow = Input::of_line(&line).filter(|input| input.layout == Layout::Narrow);
    let wide = narrow.map(|input| input.widened().to_line());
    [line].into_iter().chain(wide).collect()
}

#[test]
fn every_limit_is_the_rusts() {
    for limit in 1..=LIMIT_MOST {
        let mut reference = Reference::at_limit(limit);
        for number in 0..2000 {
            for line in in_both(input_line_at(limit as u64, number, limit)) {
                let mut wanted = Vec::new();
                reference.answer(&line, &mut wanted);
                let given = answer_line_at(&line, limit);
                assert_eq!(given, wanted, "limit {limit}: {}", shown(&line));
            }
        }
    }
}

fn raises_nesting_too_deep(input: &Input, answer: &Answer) -> bool {
    let mut records = input
        .diagnostic_records(answer)
        .chunks(input.layout.sizes().diagnostic);
    records.any(|one| one[0] == 6)
}

/// "A reading that raises no NestingTooDeep at one limit has the same answer at every higher one", to the last byte of the stores.
#[test]
fn what_is_not_too_deep_stays_at_every_higher_limit() {
    let (mut same, mut too_deep) = (0, 0);
    for number in 0..50_000 {
        let mut random = Random::new(20261117, number);
        let limit = random.between(1, LIMIT_MOST);
        let higher = random.between(limit, LIMIT_MOST);
        let lines = in_both(input_line_at(17, number, random.pick(&[limit, higher])));
        let line = &lines[random.below(lines.len())];
        let Some(input) = Input::of_line(line) else {
            continue;
        };
        let mut low = input.clone().at_limit(limit);
        let Ok(answer) = low.read() else {
            continue;
        };
        if raises_nesting_too_deep(&low, &answer) {
            too_deep += 1;
            continue;
        }
        same += 1;
        let mut high = input.at_limit(higher);
        assert_eq!(high.read(), Ok(answer), "{}", shown(line));
        assert_eq!(high, low.at_limit(higher), "{}", shown(line));
    }
    println!("{same} readings are the same, {too_deep} were too deep");
    assert!(same > 10_000 && too_deep > 300, "{same} {too_deep}");
}
