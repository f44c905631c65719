//! A network as its file describes it. Each list stands in an array with its count beside it, and
//! every field takes any 32-bit number, so that unsound networks can be handed to the writer too.

/// The most processes of a network.
pub const PROCESSES: usize = 12;
/// The most pairs of a network.
pub const PAIRS: usize = 66;
/// The most channels of a network.
pub const CHANNELS: usize = 16;
/// The most actions of one process.
pub const ACTIONS: usize = 24;

#[derive(Clone, Copy, Debug, Default, PartialEq, Eq)]
pub struct Process {
    pub period: u32,
    pub burst: u32,
    pub deadline: u32,
    pub budget: u32,
}

#[derive(Clone, Copy, Debug, Default, PartialEq, Eq)]
pub struct Pair {
    pub higher: u32,
    pub lower: u32,
}

#[derive(Clone, Copy, Debug, Default, PartialEq, Eq)]
pub struct Channel {
    pub kind: u32,
    pub writer: u32,
    pub reader: u32,
    pub capacity: u32,
}

/// An action as the file gives it, its head first.
pub type FourNumbers = [u32; 4];

#[derive(Clone, Debug, PartialEq, Eq)]
pub struct Network {
    pub process_count: u32,
    pub processes: [Process; PROCESSES],
    pub pair_count: u32,
    pub pairs: [Pair; PAIRS],
    pub channel_count: u32,
    pub channels: [Channel; CHANNELS],
    pub action_counts: [u32; PROCESSES],
    pub actions: [[FourNumbers; ACTIONS]; PROCESSES],
}

/// The part of a list that its count covers; a count beyond the list covers all of it.
fn counted<T>(list: &[T], count: u32) -> &[T] {
    &list[..list.len().min(count as usize)]
}

impl Network {
    /// A network with zero in all fields.
    pub fn zero() -> Self {
        Network {
            process_count: 0,
            processes: [Process::default(); PROCESSES],
            pair_count: 0,
            pairs: [Pair::default(); PAIRS],
            channel_count: 0,
            channels: [Channel::default(); CHANNELS],
            action_counts: [0; PROCESSES],
            actions: [[[0; 4]; ACTIONS]; PROCESSES],
        }
    }

    /// The processes that the network has.
    pub fn processes(&self) -> &[Process] {
        counted(&self.processes, self.process_count)
    }

    /// The pairs that the network has.
    pub fn pairs(&self) -> &[Pair] {
        counted(&self.pairs, self.pair_count)
    }

    /// The channels that the network has.
    pub fn channels(&self) -> &[Channel] {
        counted(&self.channels, self.channel_count)
    }

    /// The actions that a process has.
    pub fn actions(&self, process: usize) -> &[FourNumbers] {
        counted(&self.actions[process], self.action_counts[process])
    }
}
