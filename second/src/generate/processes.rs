//! Sets of processes with frames of wanted sizes.

use std::ops::RangeInclusive;

use super::random::Random;
use crate::frame::{self, JOBS, LONGEST};
use crate::network::{Process, PROCESSES};

/// Frame lengths with many divisors.
const FRAMES: [u32; 16] = [
    2000, 1980, 1920, 1800, 1680, 1440, 1200, 1000, 960, 720, 600, 360, 240, 120, 60, 24,
];
/// The longest period.
const LONGEST_PERIOD: u32 = 1000;

/// What a set of processes shall be like.
#[derive(Clone, Debug)]
pub struct Wish {
    pub frame: u32,
    pub jobs: RangeInclusive<u32>,
    pub count: usize,
    pub periods: RangeInclusive<u32>,
}

/// A process without deadline and budget.
fn bare(period: u32, burst: u32) -> Process {
    Process {
        period,
        burst,
        ..Process::default()
    }
}

impl Wish {
    /// How far processes whose periods divide the wished frame are from the wish.
    fn distance(&self, processes: &[Process]) -> u32 {
        let periods = processes.iter().map(|process| process.period);
        let shorter = periods.fold(1, frame::least_common_multiple) != self.frame;
        let jobs_of = |process: &Process| process.burst * (self.frame / process.period);
        let jobs = processes.iter().map(jobs_of).sum::<u32>();
        let (least, most) = (*self.jobs.start(), *self.jobs.end());
        least.saturating_sub(jobs) + jobs.saturating_sub(most) + 2 * u32::from(shorter)
    }
}

/// Processes as wished, found by changing one at a time, mostly towards the wish; where none are found in many tries, the last tried.
pub fn wished(random: &mut Random, wish: &Wish) -> Vec<Process> {
    let divides = |period: &u32| wish.frame.is_multiple_of(*period);
    let periods: Vec<u32> = wish.periods.clone().filter(divides).collect();
    let any = |random: &mut Random| bare(random.pick(&periods), random.within(1, 4));
    let mut processes: Vec<Process> = (0..wish.count).map(|_| any(random)).collect();
    let mut distance = wish.distance(&processes);
    for _ in 0..1_000_000 {
        if distance == 0 {
            return finished(random, processes);
        }
        let changed = random.below(wish.count);
        let kept = std::mem::replace(&mut processes[changed], any(random));
        let next = wish.distance(&processes);
        if next <= distance || (next < 20 && random.chance(5)) {
            distance = next;
        } else {
            processes[changed] = kept;
        }
    }
    finished(random, processes)
}

/// Gives processes their deadlines and budgets: tight or easy ones.
fn finished(random: &mut Random, mut processes: Vec<Process>) -> Vec<Process> {
    let easy = random.chance(40);
    let share = processes.len() as u32 * 2;
    for process in &mut processes {
        if easy {
            process.deadline = process.period;
            process.budget = random.within(1, (process.period / share).max(1));
        } else {
            process.deadline = random.near_ends(1, process.period);
            process.budget = random.near_ends(1, process.deadline);
        }
    }
    processes
}

/// Few processes, with a frame that is not too large.
pub fn few(random: &mut Random, most: usize, bursts: RangeInclusive<u32>) -> Vec<Process> {
    loop {
        let scale = random.within(1, 11);
        let frame = random.within(1, LONGEST.min(1 << scale));
        let periods = 1..=frame.min(LONGEST_PERIOD);
        let divisors: Vec<u32> = periods
            .filter(|period| frame.is_multiple_of(*period))
            .collect();
        let count = random.within(1, most as u32);
        let any = |random: &mut Random| {
            let burst = random.within(*bursts.start(), *bursts.end());
            bare(random.pick(&divisors), burst)
        };
        let processes: Vec<Process> = (0..count).map(|_| any(random)).collect();
        if frame::size(&processes).is_some() {
            return finished(random, processes);
        }
    }
}

/// Many processes with as many jobs as wished, in a frame of one of many lengths.
pub fn with_jobs(random: &mut Random, jobs: usize) -> Vec<Process> {
    let wish = Wish {
        frame: random.pick(&FRAMES),
        jobs: jobs as u32..=jobs as u32,
        count: random.within(7, PROCESSES as u32) as usize,
        periods: 1..=LONGEST_PERIOD,
    };
    wished(random, &wish)
}

/// Twelve processes with 128 jobs in a frame of 2000.
pub fn full(random: &mut Random) -> Vec<Process> {
    let wish = Wish {
        frame: LONGEST,
        jobs: JOBS as u32..=JOBS as u32,
        count: PROCESSES,
        periods: 1..=LONGEST_PERIOD,
    };
    wished(random, &wish)
}

/// Twelve processes with 128 jobs in a frame of 2000, all of whose times but bursts take two bytes.
pub fn longest(random: &mut Random) -> Vec<Process> {
    let wish = Wish {
        frame: LONGEST,
        jobs: JOBS as u32..=JOBS as u32,
        count: PROCESSES,
        periods: 128..=LONGEST_PERIOD,
    };
    let mut processes = wished(random, &wish);
    for process in &mut processes {
        process.deadline = random.near_ends(128, process.period);
        process.budget = random.near_ends(128, process.deadline);
    }
    processes
}

/// Processes with a frame of 2001 and no more than 128 jobs.
pub fn frame_past(random: &mut Random) -> Vec<Process> {
    let wish = Wish {
        frame: LONGEST + 1,
        jobs: 1..=JOBS as u32,
        count: random.within(2, 6) as usize,
        periods: 60..=LONGEST_PERIOD,
    };
    wished(random, &wish)
}

/// Processes whose periods share no divisor, so that the frame is far too long.
pub fn frame_far_past(random: &mut Random) -> Vec<Process> {
    const PRIMES: [u32; 14] = [
        997, 991, 983, 977, 971, 967, 953, 947, 941, 937, 929, 919, 911, 907,
    ];
    let mut periods = PRIMES;
    random.shuffle(&mut periods);
    let count = random.within(2, PROCESSES as u32) as usize;
    let chosen = periods[..count].iter();
    let processes = chosen
        .map(|&period| bare(period, random.within(1, 4)))
        .collect();
    finished(random, processes)
}

#[cfg(test)]
mod tests {
    use super::*;

    #[test]
    fn wishes_are_met() {
        for seed in 0..200 {
            let mut random = Random::new(seed);
            let jobs = random.within(40, 129) as usize;
            let met = frame::size(&with_jobs(&mut random, jobs)).map(|size| size.jobs);
            assert_eq!(met, (jobs <= JOBS).then_some(jobs));
            let met = frame::size(&longest(&mut random)).expect("the frame is not too large");
            assert_eq!((met.length, met.jobs), (LONGEST, JOBS));
            assert_eq!(frame::size(&frame_past(&mut random)), None);
        }
    }
}
