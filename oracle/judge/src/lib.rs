//! The three questions, answered from document 01 with the Rust as judge of clocks, faults, texts and rewriting.
//!
//! - `sheet`: bytes to the Rust's tree and back, refusals 1 to 6.
//! - `types`: refusal 7, and how large a default is.
//! - `bound`: refusal 9, which the Rust does not know.
//! - `answer`: the three questions.
//! - `line`: question and answer lines.
//! - `program`: what each program prints.
//! - `generate`: seeded sheets and questions.
pub mod answer;
pub mod bound;
pub mod generate;
pub mod line;
pub mod program;
pub mod sheet;
pub mod types;

/// A refusal's number and place.
#[derive(Debug, Clone, Copy, PartialEq, Eq)]
pub struct Refused(pub u8, pub u64);
