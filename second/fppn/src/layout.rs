//! The structs of the face to C, field by field as the C header lays them out.

/// The most processes of a network.
pub const PROCESSES: usize = 12;
/// The most pairs of a network.
pub const PAIRS: usize = 66;
/// The most channels of a network.
pub const CHANNELS: usize = 16;
/// The words of all actions: action k of process p stands at 96 p + 4 k.
pub const ACTION_WORDS: usize = 1152;
/// The most jobs of a frame.
pub const JOBS: usize = 128;
/// The words of all variables, eight for each process.
pub const VARIABLE_WORDS: usize = 96;

#[repr(C)]
#[derive(Clone, Copy, Debug, PartialEq, Eq)]
pub struct Process {
    pub period: u32,
    pub burst: u32,
    pub deadline: u32,
    pub budget: u32,
}

#[repr(C)]
#[derive(Clone, Copy, Debug, PartialEq, Eq)]
pub struct Pair {
    pub higher: u32,
    pub lower: u32,
}

#[repr(C)]
#[derive(Clone, Copy, Debug, PartialEq, Eq)]
pub struct Channel {
    pub kind: u32,
    pub writer: u32,
    pub reader: u32,
    pub capacity: u32,
}

#[repr(C)]
#[derive(Clone, Copy, Debug, PartialEq, Eq)]
pub struct Network {
    pub process_count: u32,
    pub processes: [Process; PROCESSES],
    pub pair_count: u32,
    pub pairs: [Pair; PAIRS],
    pub channel_count: u32,
    pub channels: [Channel; CHANNELS],
    pub action_counts: [u32; PROCESSES],
    pub actions: [u32; ACTION_WORDS],
}

/// What the reader returns.
#[repr(C)]
#[derive(Clone, Copy, Debug, PartialEq, Eq)]
pub struct Loaded {
    pub reply: u32,
    pub place: usize,
    pub network: Network,
}

/// What the writer returns.
#[repr(C)]
#[derive(Clone, Copy, Debug, PartialEq, Eq)]
pub struct Written {
    pub reply: u32,
    pub place: usize,
    pub length: usize,
}

/// The job sequence and the reduced precedence graph. Two words make a row: bit k % 64 of word
/// 2 i + k / 64 is set when an edge from job i to job k stays.
#[repr(C)]
#[derive(Clone, Copy, Debug, PartialEq, Eq)]
pub struct GraphResult {
    pub reply: u32,
    pub place: usize,
    pub jobs: u32,
    pub frame: u32,
    pub edges: u32,
    pub process: [u32; JOBS],
    pub release: [u32; JOBS],
    pub deadline: [u32; JOBS],
    pub budget: [u32; JOBS],
    pub rows: [u64; 2 * JOBS],
}

/// What a channel holds at the end of a run, oldest value first.
#[repr(C)]
#[derive(Clone, Copy, Debug, PartialEq, Eq)]
pub struct Held {
    pub held: u32,
    pub values: [u32; 8],
    pub loss: u32,
}

/// What the zero-delay run returns.
#[repr(C)]
#[derive(Clone, Copy, Debug, PartialEq, Eq)]
pub struct Ran {
    pub reply: u32,
    pub place: usize,
    pub variables: [u32; VARIABLE_WORDS],
    pub channels: [Held; CHANNELS],
}

/// What the planner, the checker and the timed run return.
#[repr(C)]
#[derive(Clone, Copy, Debug, PartialEq, Eq)]
pub struct Answer {
    pub reply: u32,
    pub place: usize,
}

/// What the turn run returns: frames finished, jobs finished in the present frame, turns that
/// worked and turns that waited, and what the run leaves.
#[repr(C)]
#[derive(Clone, Copy, Debug, PartialEq, Eq)]
pub struct Turned {
    pub reply: u32,
    pub place: usize,
    pub frames: usize,
    pub jobs: usize,
    pub working: usize,
    pub waiting: usize,
    pub variables: [u32; VARIABLE_WORDS],
    pub channels: [Held; CHANNELS],
}

/// What the lister returns: the length of the text.
#[repr(C)]
#[derive(Clone, Copy, Debug, PartialEq, Eq)]
pub struct Listed {
    pub reply: u32,
    pub place: usize,
    pub length: usize,
}
