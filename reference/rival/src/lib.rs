//! The gateway engine of documents 01 and 02 in plain Rust, as it would be written without proofs: structs in arrays, changed
//! in place, no check of soundness and no images. It is what the proved engine is measured against (docs/PERFORMANCE.md), and
//! is held equal to the independent implementation by `rival compare`. Written from the documents; it shares no code.

#![forbid(unsafe_code)]

mod advert;
mod aes;
mod answer;
mod command;
mod condition;
mod engine;
mod frame;
mod line;
mod monitor;
mod packet;
mod pair;
mod tick;

pub use engine::{Engine, Ran};
pub use frame::Refusal;

/// Octets that must be lent for a frame's answer.
pub const ANSWER: usize = 2880;

const MONITORS: usize = 16;
const PAIRS: usize = 64;
const DATA: usize = 31;
const PREFIX: usize = 32;
