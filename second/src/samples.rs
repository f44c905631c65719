//! Samples: two words each, present and value.

use crate::refusal::{Refusal, Reply};

/// The sample of one job.
#[derive(Clone, Copy, Debug, Default, PartialEq, Eq)]
pub struct Sample {
    pub present: u32,
    pub value: u32,
}

impl Sample {
    /// The sample that a job finds or leaves.
    pub fn of(words: &[u32]) -> Self {
        Sample {
            present: words[0],
            value: words[1],
        }
    }

    pub fn store(self, words: &mut [u32]) {
        words.copy_from_slice(&[self.present, self.value]);
    }

    fn is_sound(self) -> bool {
        self.present == 1 || self == Sample::default()
    }
}

/// Refuses the first sample whose present is above 1 or that has a value without present.
pub fn check(words: &[u32]) -> Result<(), Refusal> {
    let mut samples = words.chunks_exact(2).map(Sample::of);
    match samples.position(|sample| !sample.is_sound()) {
        Some(index) => Err(Reply::Sample.at(index)),
        None => Ok(()),
    }
}
