//! An independent second implementation of the network rules in ordinary Rust, with a generator of
//! cases and the comparison of both implementations.

#![forbid(unsafe_code)]

pub mod as_library;
pub mod differences;
pub mod frame;
pub mod generate;
pub mod graph;
pub mod listing;
pub mod machine;
pub mod network;
pub mod number;
pub mod plan;
pub mod read;
pub mod refusal;
pub mod relation;
pub mod rules;
pub mod samples;
pub mod side_by_side;
pub mod timed;
pub mod turns;
pub mod vectors;
pub mod write;
pub mod zero_delay;

#[cfg(test)]
mod examples;
