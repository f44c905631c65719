//! The frame: its length, and the sequence of its jobs.

use crate::network::{Network, Process, PROCESSES};
use crate::relation::ProcessSet;
use crate::relation::Relation;

/// The longest frame.
pub const LONGEST: u32 = 2000;
/// The most jobs of a frame.
pub const JOBS: usize = 128;

/// A job; its deadline is the absolute one.
#[derive(Clone, Copy, Debug, Default, PartialEq, Eq)]
pub struct Job {
    pub process: u32,
    pub release: u32,
    pub deadline: u32,
    pub budget: u32,
}

/// The jobs of a frame, numbered in the sequence of the zero-delay run.
#[derive(Clone, Debug)]
pub struct Frame {
    pub length: u32,
    job_count: usize,
    all: [Job; JOBS],
}

/// Length and number of jobs of a frame.
#[derive(Clone, Copy, Debug, PartialEq, Eq)]
pub struct Size {
    pub length: u32,
    pub jobs: usize,
}

/// The least common multiple of two numbers above 0.
pub fn least_common_multiple(a: u32, b: u32) -> u32 {
    let (mut divisor, mut rest) = (a, b);
    while rest != 0 {
        (divisor, rest) = (rest, divisor % rest);
    }
    a / divisor * b
}

/// The size of the frame that processes of sound periods and bursts make, unless it is too large.
pub fn size(processes: &[Process]) -> Option<Size> {
    let mut length = 1;
    for process in processes {
        length = least_common_multiple(length, process.period);
        if length > LONGEST {
            return None;
        }
    }
    let jobs_of = |process: &Process| process.burst * (length / process.period);
    let jobs = processes.iter().map(jobs_of).sum::<u32>() as usize;
    (jobs <= JOBS).then_some(Size { length, jobs })
}

impl Frame {
    /// The frame of a sound network.
    pub fn of(network: &Network, relation: &Relation) -> Self {
        let size = size(network.processes()).expect("a sound network's frame is not too large");
        let mut frame = Frame {
            length: size.length,
            job_count: 0,
            all: [Job::default(); JOBS],
        };
        let ahead = relation.chains().ahead();
        let mut next = [u32::MAX; PROCESSES];
        next[..network.processes().len()].fill(0);
        while frame.job_count < size.jobs {
            let time = next.into_iter().min().unwrap_or(0);
            let mut released = 0;
            for (process, next) in next.iter_mut().enumerate() {
                if *next == time {
                    released |= 1 << process;
                    *next += network.processes[process].period;
                }
            }
            frame.release(network, time, released, &ahead);
        }
        frame
    }

    /// Adds the jobs released at one time. A process whose burst has begun stays the smallest with
    /// none ahead of it, so its whole burst follows at once.
    fn release(
        &mut self,
        network: &Network,
        time: u32,
        released: ProcessSet,
        ahead: &[ProcessSet; PROCESSES],
    ) {
        let mut pending = released;
        while pending != 0 {
            let is_free =
                |&process: &usize| pending >> process & 1 == 1 && ahead[process] & pending == 0;
            let mut all = 0..PROCESSES;
            let chosen = all
                .find(is_free)
                .expect("pairs without cycle leave one free");
            let process = &network.processes[chosen];
            let job = Job {
                process: chosen as u32,
                release: time,
                deadline: time + process.deadline,
                budget: process.budget,
            };
            let after = self.job_count + process.burst as usize;
            self.all[self.job_count..after].fill(job);
            self.job_count = after;
            pending &= !(1 << chosen);
        }
    }

    /// The jobs in their sequence.
    pub fn jobs(&self) -> &[Job] {
        &self.all[..self.job_count]
    }
}
