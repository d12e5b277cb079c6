//! What the reference's programs share, in reading order.
//!
//! | module | holds |
//! |---|---|
//! | `hex`, `printable`, `lines`, `command_line` | digits, any bytes, bounded lines, and how every program ends |
//! | `layout` | the narrow layout and the wide one: how a number is written, sizes and limits |
//! | `frame`, `tokens`, `refusal` | a frame's parts and what makes it no input |
//! | `recover`, `records` | the Rust's tree and diagnostics as the records of docs/FORMAT.md |
//! | `answer`, `reference` | an answer line, and the reference's own answer to a frame, at any nesting limit |
//! | `trial_lines` | the committed frames with their answers |
//! | `names`, `words` | the records in words |
//! | `lexer` | a text's tokens, for people |
//! | `random`, `generate`, `coverage` | frames by seed, and what they reach |
//! | `grammar` | document 01's table of spellings as a recogniser |
//! | `compare` | two programs on the same frames |
//! | `pairs` | one program on the same frames in both layouts |

pub mod answer;
pub mod command_line;
pub mod compare;
pub mod coverage;
pub mod frame;
pub mod generate;
pub mod grammar;
pub mod hex;
pub mod layout;
pub mod lexer;
pub mod lines;
pub mod names;
pub mod pairs;
pub mod printable;
pub mod random;
pub mod records;
pub mod recover;
pub mod reference;
pub mod refusal;
pub mod tokens;
pub mod trial_lines;
pub mod words;
