//! The modules of the assembler: five real ones and two stubs.

pub mod ast;
pub mod diagnostics;
pub mod names;
pub mod source;
pub mod token;
pub mod tokenizer;

// `pub mod parser;` and `pub(crate) mod limited;`, the two copies that build.rs made of `parser.rs`.
include!(concat!(env!("OUT_DIR"), "/modules.rs"));
