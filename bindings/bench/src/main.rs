//! The proved reader in both layouts beside the Rust's `parse_operand`, in one process on the same operands.
//!
//!     bench FILE          an operand a line, as bindings/corpus/operands.txt
//!     bench FILE COUNT    the proved reader alone, so many times over the file, for a profiler
//!     bench FILE COUNT wide    in the wide layout
//!     bench FILE COUNT rust    the Rust alone
//!
//! Tokens and parsers are made before the clock runs. Each time is the least of many rounds, the
//! readers taking turns.

mod case;
mod readers;

use case::{same_answer, Case, Stores};
use readers::Readers;
use sagdrif::Layout::{self, Narrow, Wide};
use std::time::Instant;

const ROUNDS: usize = 300;

/// Nanoseconds a reading, of each way of reading (`Readers`). What was not timed stays infinite.
#[derive(Clone, Copy)]
struct Times {
    narrow: Proved,
    wide: Proved,
    rust: f64,
    kept: f64,
    made: f64,
    whole: f64,
}

/// Those of the proved reader in a layout.
#[derive(Clone, Copy)]
struct Proved {
    call: f64,
    checks: f64,
    cleared: f64,
}

const NEVER: f64 = f64::INFINITY;

const NONE: Proved = Proved {
    call: NEVER,
    checks: NEVER,
    cleared: NEVER,
};

impl Times {
    const NONE: Times = Times {
        narrow: NONE,
        wide: NONE,
        rust: NEVER,
        kept: NEVER,
        made: NEVER,
        whole: NEVER,
    };
}

/// The clock of one measurement: how often a pass is repeated, and how many readings that makes.
struct Clock {
    repeats: usize,
    readings: usize,
}

impl Clock {
    #[inline(always)]
    fn time(&self, least: &mut f64, mut pass: impl FnMut()) {
        let begun = Instant::now();
        for _ in 0..self.repeats {
            pass();
        }
        let each = begun.elapsed().as_nanos() as f64 / self.readings as f64;
        *least = least.min(each);
    }

    #[inline(always)]
    fn proved(&self, least: &mut Proved, readers: &mut Readers, layout: Layout) {
        self.time(&mut least.call, || readers.proved(layout));
        self.time(&mut least.checks, || readers.checks(layout));
        self.time(&mut least.cleared, || readers.cleared(layout));
    }
}

fn measured(cases: &[Case], repeats: usize) -> Times {
    let clock = Clock {
        repeats,
        readings: cases.len() * repeats,
    };
    let narrow = cases.iter().all(|case| case.fits(Narrow));
    let mut readers = Readers::new(cases, repeats);
    let mut least = Times::NONE;
    for _ in 0..ROUNDS {
        if narrow {
            clock.proved(&mut least.narrow, &mut readers, Narrow);
        }
        clock.proved(&mut least.wide, &mut readers, Wide);
        clock.time(&mut least.rust, || readers.rust());
        readers.forget();
        clock.time(&mut least.kept, || readers.kept());
        readers.forget();
        clock.time(&mut least.made, || readers.made());
        clock.time(&mut least.whole, || readers.whole());
    }
    least
}

fn must_answer_alike(layout: Layout, cases: &[Case]) {
    let mut stores = Stores::new(layout);
    for case in cases.iter().filter(|case| case.fits(layout)) {
        let alike = same_answer(layout, case, &mut stores);
        assert!(alike, "{layout:?}: `{}` is answered otherwise", case.text);
    }
}

/// A cell of the table. What follows from an infinite time, which is infinite, none or 0, was not timed.
fn cell(number: f64, digits: usize) -> String {
    if number.is_finite() && number != 0.0 {
        format!("{number:>10.digits$}")
    } else {
        format!("{:>10}", "-")
    }
}

fn show(name: &str, cases: &[Case], repeats: usize) {
    for layout in Layout::ALL {
        must_answer_alike(layout, cases);
    }
    let t = measured(cases, repeats);
    let proved = [t.narrow, t.wide];
    let calls = [t.narrow.call, t.wide.call, t.rust];
    let times = calls.map(|time| cell(time, 1));
    let rates = calls.map(|time| cell(1e9 / time, 0));
    let ratios = proved.map(|proved| cell(t.rust / proved.call, 2));
    let checks = proved.map(|proved| cell(proved.checks, 1));
    let clearings = proved.map(|proved| cell(proved.cleared - proved.checks, 1));
    let others = [t.kept, t.made, t.whole].map(|time| cell(time, 1));
    let line = [&times[..], &rates, &ratios, &checks, &clearings, &others];
    println!("{name:<26}{}", line.concat().concat());
}

fn head() {
    let columns = [
        "narrow ns",
        "wide ns",
        "Rust ns",
        "narrow/s",
        "wide/s",
        "Rust/s",
        "R/narrow",
        "R/wide",
        "n.checks",
        "w.checks",
        "n.clear",
        "w.clear",
        "kept ns",
        "+new ns",
        "whole ns",
    ];
    let line: String = columns.iter().map(|name| format!("{name:>10}")).collect();
    println!("{:<26}{line}", "");
}

fn sum(terms: usize) -> String {
    vec!["1"; terms].join("+")
}

/// One reader alone, for a profiler.
fn profiled(cases: &[Case], count: usize, reader: Option<&str>) {
    let mut readers = Readers::new(cases, 0);
    for _ in 0..count {
        match reader {
            None => readers.proved(Narrow),
            Some("wide") => readers.proved(Wide),
            Some(_) => readers.rust(),
        }
    }
}

fn show_corpus(corpus: &[Case]) {
    let bytes: usize = corpus.iter().map(|case| case.text.len()).sum();
    let tokens: usize = corpus.iter().map(|case| case.tokens.len()).sum();
    let each = |total: usize| total as f64 / corpus.len() as f64;
    println!(
        "{} operands, {:.1} bytes and {:.1} tokens each",
        corpus.len(),
        each(bytes),
        each(tokens)
    );
    head();
    show("corpus", corpus, 1);
}

/// Small operands, and such as take long.
fn show_single() {
    for text in [
        "d0",
        "(a0)+",
        "label",
        "#1",
        "4(a0)",
        "(4,a0,d0.w*4)",
        "([4,a0],8)",
        "d0-d3/a0",
    ] {
        show(text, &[Case::new(text)], 200);
    }
    let nested = format!("{}1{}", "(".repeat(63), ")".repeat(63));
    let worst = [
        ("128 terms, 255 tokens", sum(128)),
        ("63 groups in each other", nested),
        ("64 terms open, too deep", format!("{}1", "-".repeat(64))),
        ("63 minus signs", format!("{}1", "-".repeat(63))),
        ("list of 85 registers", vec!["d0"; 85].join("/")),
        ("255 plus signs", "+".repeat(255)),
        ("255 tokens, ended early", "1*/".repeat(85)),
    ];
    for (name, text) in worst {
        show(name, &[Case::new(&text)], 200);
    }
    show("512 terms, 1,023 tokens", &[Case::new(&sum(512))], 50);
}

fn main() {
    let words: Vec<String> = std::env::args().skip(1).collect();
    let path = words.first().expect("a file of operands");
    let text = std::fs::read_to_string(path).expect("a file of operands");
    let corpus: Vec<Case> = text.lines().map(Case::new).collect();
    if let Some(count) = words.get(1) {
        let count = count.parse().expect("a count");
        return profiled(&corpus, count, words.get(2).map(String::as_str));
    }
    show_corpus(&corpus);
    show_single();
    println!();
    head();
    for terms in [1, 2, 4, 8, 16, 32, 48, 64, 80, 96, 112, 127] {
        let name = format!("sum of {terms} terms");
        show(&name, &[Case::new(&sum(terms))], 200);
    }
}
