//! Safe Rust functions over the library's face to C: the structs as C lays them out, and one
//! function for each of the library's calls.

mod calls;
mod layout;

pub use calls::{check, graph, list, plan, read, timed, turns, write, zero_delay, Turns};
pub use layout::{
    Answer, Channel, GraphResult, Held, Listed, Loaded, Network, Pair, Process, Ran, Turned,
    Written, ACTION_WORDS, CHANNELS, JOBS, PAIRS, PROCESSES, VARIABLE_WORDS,
};
