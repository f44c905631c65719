//! Runs to ask for: frames, input samples, and the length of the memory for output.

use super::random::Random;
use crate::rules::FRAMES;

/// A run to ask for.
#[derive(Clone, Debug, PartialEq, Eq)]
pub struct Run {
    pub frames: u32,
    pub input: Vec<u32>,
    pub output_length: usize,
}

/// A run of a network with so many jobs.
pub fn any(random: &mut Random, jobs: usize) -> Run {
    let frames = frames(random);
    of_frames(random, jobs, frames)
}

/// A run of so many frames, of a network with so many jobs.
pub fn of_frames(random: &mut Random, jobs: usize, frames: u32) -> Run {
    let counted = if FRAMES.contains(&frames) {
        frames
    } else {
        random.within(0, 3)
    };
    let words = 2 * jobs * counted as usize;
    let mut input = samples(random, words);
    if words > 0 && random.chance(13) {
        spoil(random, &mut input);
    }
    lend(random, &mut input);
    Run {
        frames,
        input,
        output_length: length(random, words),
    }
}

fn frames(random: &mut Random) -> u32 {
    match random.below(100) {
        0..=1 => 0,
        2..=3 => *FRAMES.end() + 1,
        4..=5 => random.pick(&[u32::MAX, 1 << 31, 1 << 16, 256, 257, 128]),
        6..=30 => 1,
        31..=50 => 2,
        51..=91 => random.within(3, 12),
        92..=94 => random.within(13, *FRAMES.end() - 1),
        _ => *FRAMES.end(),
    }
}

/// Words to lend where these are wanted: the same, fewer, or more with anything beyond.
pub fn lend(random: &mut Random, words: &mut Vec<u32>) {
    let length = length(random, words.len());
    words.truncate(length);
    while words.len() < length {
        words.push(random.word());
    }
}

/// A length for lent memory of which so many words are wanted.
pub fn length(random: &mut Random, words: usize) -> usize {
    match random.below(100) {
        0..=59 => words,
        60..=63 => words.saturating_sub(1),
        64 => words.saturating_sub(2),
        65 => random.below(words + 1),
        66 => 0,
        67..=79 => words + 1,
        _ => words + random.below(300),
    }
}

/// Sound samples of so many words.
pub fn samples(random: &mut Random, words: usize) -> Vec<u32> {
    let percent = random.pick(&[0, 20, 60, 60, 100]);
    let mut samples = Vec::with_capacity(words);
    while samples.len() < words {
        let sample = if random.chance(percent) {
            [1, random.word()]
        } else {
            [0, 0]
        };
        samples.extend(sample);
    }
    samples
}

/// Spoils one sample or two: the first, the last or one between.
fn spoil(random: &mut Random, input: &mut [u32]) {
    let count = input.len() / 2;
    for _ in 0..random.within(1, 2) {
        let index = match random.below(4) {
            0 => 0,
            1 => count - 1,
            _ => random.below(count),
        };
        let value = random.word();
        let (present, value) = match random.below(4) {
            0 => (random.pick(&[2, 2, 3, 256, 257, u32::MAX]), 0),
            1 => (random.word().max(2), value),
            2 => (0, 1),
            _ => (0, value.max(1)),
        };
        input[2 * index] = present;
        input[2 * index + 1] = value;
    }
}
