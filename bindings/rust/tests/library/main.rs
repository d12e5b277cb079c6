//! The library against what the Rust answers, and against the table of refusals, in both layouts.

mod arbitrary;
mod bytes;
mod common;
mod layouts;
mod limits;
mod long;
mod marks;
mod recorded;
mod refusals;
mod text;
