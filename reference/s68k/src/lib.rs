//! Five files of Specy/s68k, unchanged, and what they need to compile.
//!
//! `assembler/{ast,diagnostics,parser,source,token}.rs` are the assembler's own (the sums stand
//! in `../SHA256SUMS`). All else in this package is ours: stubs, each of which says what it stands
//! for; `driver.rs`, through which `parse_operand` is called; `reading.rs`, what a call gives; and
//! `nesting.rs`, the call with another nesting limit.

// The lints below speak of the unchanged files only, most of whose functions nothing calls here.
#![allow(dead_code, unused_variables, clippy::all)]
#![allow(rustdoc::broken_intra_doc_links, rustdoc::private_intra_doc_links)]

pub mod assembler;
pub mod charset;
pub mod machine;
pub mod nesting;
pub mod reading;
