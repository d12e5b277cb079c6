//! Makes the two copies of `parser.rs` that are compiled.
//!
//! `parser` is the unchanged file and one line after it. `Parser` is private to its module; the
//! appended line declares a child module, `driver`, and a child sees its parent's private items.
//! `limited` is the same, except that both uses of `MAX_NESTING_DEPTH` ask for the limit at run
//! time (`src/nesting.rs`). The other four files are compiled where they stand.
//!
//! `REFERENCE_NESTING_LIMIT` (1 to 128) replaces the 64 of `MAX_NESTING_DEPTH` in `parser`, for
//! holding `limited` against it; without it `parser` keeps the 64.

use std::env;
use std::fs;
use std::path::Path;

const LIMIT_VARIABLE: &str = "REFERENCE_NESTING_LIMIT";
const CONSTANT: &str = "MAX_NESTING_DEPTH";
const LIMIT_LINE: &str = "const MAX_NESTING_DEPTH: usize = 64;";
/// The uses of the constant.
const USES: [&str; 2] = ["self.depth >= MAX_NESTING_DEPTH", "limit: MAX_NESTING_DEPTH"];
const RUN_TIME_LIMIT: &str = "crate::nesting::limit()";

fn main() {
    let package = env::var("CARGO_MANIFEST_DIR").expect("cargo names the package's folder");
    let out = env::var("OUT_DIR").expect("cargo names the output folder");
    let (package, out) = (Path::new(&package), Path::new(&out));
    let original = package.join("src/assembler/parser.rs");
    let driver = package.join("src/driver.rs");

    println!("cargo:rerun-if-changed={}", original.display());
    println!("cargo:rerun-if-env-changed={LIMIT_VARIABLE}");

    let text = fs::read_to_string(&original).expect("parser.rs can be read");
    let parser = match env::var(LIMIT_VARIABLE) {
        Ok(limit) => with_nesting_limit(&text, &limit),
        Err(_) => text.clone(),
    };
    let mut modules = String::new();
    for (name, visible, text) in [
        ("parser", "pub", parser),
        ("limited", "pub(crate)", with_limit_at_run_time(&text)),
    ] {
        let copy = out.join(name).with_extension("rs");
        let appended = format!("#[path = {driver:?}] pub mod driver;\n");
        fs::write(&copy, text + &appended).expect("a copy of parser.rs can be written");
        modules += &format!("#[path = {copy:?}] {visible} mod {name};\n");
    }
    fs::write(out.join("modules.rs"), modules).expect("the module lines can be written");
}

/// The text of `parser.rs` with another nesting limit.
fn with_nesting_limit(text: &str, limit: &str) -> String {
    let value: usize = limit.parse().unwrap_or(0);
    assert!(
        (1..=128).contains(&value),
        "{LIMIT_VARIABLE} is `{limit}`, but a nesting limit is a number from 1 to 128"
    );
    let line = format!("const {CONSTANT}: usize = {value};");
    replaced_once(text, LIMIT_LINE, &line)
}

/// The text of `parser.rs` with a nesting limit that is asked for at run time.
fn with_limit_at_run_time(text: &str) -> String {
    let text = USES.iter().fold(text.to_string(), |text, old| {
        replaced_once(&text, old, &old.replace(CONSTANT, RUN_TIME_LIMIT))
    });
    let code = text.lines().filter(|line| !line.trim_start().starts_with("//"));
    let left: Vec<&str> = code.filter(|line| line.contains(CONSTANT)).collect();
    assert_eq!(left, [LIMIT_LINE], "parser.rs uses `{CONSTANT}` elsewhere too");
    text
}

/// The text with `new` in the place of `old`, which it has once.
fn replaced_once(text: &str, old: &str, new: &str) -> String {
    let count = text.matches(old).count();
    assert_eq!(count, 1, "parser.rs no longer has `{old}` exactly once");
    text.replace(old, new)
}
