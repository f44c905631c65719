//! The numbered replies that refuse a call, each with the place it names.

/// Why a call is refused. The numbers are those of the rules.
#[derive(Clone, Copy, Debug, PartialEq, Eq)]
#[repr(u32)]
pub enum Reply {
    EndsEarly = 1,
    Malformed = 2,
    Version = 3,
    Range = 4,
    Pair = 5,
    Channel = 6,
    Action = 7,
    LeftOver = 8,
    TooLarge = 9,
    ShortBuffer = 10,
    Processor = 11,
    BeforeRelease = 12,
    EndsLate = 13,
    Overlap = 14,
    BeforePredecessor = 15,
    Sample = 16,
    Turn = 17,
    Duration = 18,
    MissedDeadline = 19,
}

impl Reply {
    /// This reply with its place.
    pub fn at(self, place: usize) -> Refusal {
        Refusal { reply: self, place }
    }
}

/// A refused call: the reply and the place it names.
#[derive(Clone, Copy, Debug, PartialEq, Eq)]
pub struct Refusal {
    pub reply: Reply,
    pub place: usize,
}
