//! Faults put into plans.

use super::random::Random;
use crate::plan::{Judge, Task, FAULTS};
use crate::refusal::Reply;

/// A plan to be spoiled.
#[derive(Debug)]
pub struct Spoiled<'a> {
    pub task: &'a Task,
    pub processors: u32,
    pub words: &'a mut [u32],
}

/// How many jobs are tried for a wish.
const JOBS_TRIED: usize = 8;
/// How many places are tried for each.
const PLACES_TRIED: usize = 60;

impl Spoiled<'_> {
    /// The faults of a job, as they now are.
    pub fn faults(&self, job: usize) -> Vec<Reply> {
        let judge = Judge::of(self.task, self.processors, self.words);
        let faults = FAULTS.into_iter();
        faults.filter(|&fault| judge.has(fault, job)).collect()
    }

    /// Gives one job other than `spared` exactly the wished faults; tells which, if it was found.
    pub fn plant(
        &mut self,
        random: &mut Random,
        wished: &[Reply],
        spared: Option<usize>,
    ) -> Option<usize> {
        let jobs = 0..self.task.jobs().len();
        let mut others: Vec<usize> = jobs.filter(|&job| Some(job) != spared).collect();
        random.shuffle(&mut others);
        let mut tried = others.into_iter().take(JOBS_TRIED);
        tried.find(|&job| self.plant_at(random, wished, job))
    }

    /// Processor and start of a job.
    fn place(&self, job: usize) -> [u32; 2] {
        [self.words[2 * job], self.words[2 * job + 1]]
    }

    fn put(&mut self, job: usize, place: [u32; 2]) {
        self.words[2 * job..2 * job + 2].copy_from_slice(&place);
    }

    /// Tries processors and starts for a job until it has exactly the wished faults.
    fn plant_at(&mut self, random: &mut Random, wished: &[Reply], job: usize) -> bool {
        let kept = self.place(job);
        let bad_processor = wished.contains(&Reply::Processor);
        if job > 0 && random.chance(30) {
            let lower = random.below(job);
            self.delay(random, lower);
        }
        for _ in 0..PLACES_TRIED {
            let processor = if bad_processor {
                beyond(random, self.processors)
            } else {
                random.within(0, self.processors - 1)
            };
            let start = self.start(random, job);
            self.put(job, [processor, start]);
            if self.faults(job) == wished {
                return true;
            }
        }
        self.put(job, kept);
        false
    }

    /// Starts a job as late as it may, if that makes no fault of its own.
    fn delay(&mut self, random: &mut Random, job: usize) {
        let (kept, described) = (self.place(job), self.task.jobs()[job]);
        let processor = random.within(0, self.processors - 1);
        self.put(job, [processor, described.deadline - described.budget]);
        if !self.faults(job).is_empty() {
            self.put(job, kept);
        }
    }

    /// A start at one side or the other of a line that a fault has.
    pub fn start(&self, random: &mut Random, job: usize) -> u32 {
        let described = self.task.jobs()[job];
        let (release, budget) = (described.release, described.budget);
        let nudge = random.pick(&[u32::MAX, 0, 1]);
        let line = match random.below(12) {
            0 => 0,
            1..=2 => release,
            3 => random.within(0, release),
            4..=5 => described.deadline - budget,
            6 => random.within(release, described.deadline - budget),
            7 => random.pick(&[u32::MAX, u32::MAX - budget, 1 << 31]),
            8 => u32::MAX - budget + random.within(1, budget),
            9 => random.word(),
            _ => return self.near_other(random, job),
        };
        line.wrapping_add(nudge)
    }

    /// A start about where another job starts or ends, or midway.
    fn near_other(&self, random: &mut Random, job: usize) -> u32 {
        let jobs = self.task.jobs();
        let bound = if job > 0 && random.chance(80) {
            job
        } else {
            jobs.len()
        };
        let other = random.below(bound);
        let [_, start] = self.place(other);
        let nudge = random.pick(&[u32::MAX, 0, 1]);
        let distance = match random.below(4) {
            0 => 0,
            1 => jobs[job].budget.wrapping_neg(),
            2 => jobs[other].budget,
            _ => random.within(0, jobs[other].budget - 1),
        };
        start.wrapping_add(distance).wrapping_add(nudge)
    }
}

/// A number that no processor has.
pub fn beyond(random: &mut Random, processors: u32) -> u32 {
    match random.below(4) {
        0 => processors,
        1 => processors + 1,
        2 => random
            .pick(&[4, 5, 255, 256, 1 << 16, 1 << 31, u32::MAX])
            .max(processors),
        _ => random.word().max(processors),
    }
}

/// So many of the faults.
pub fn wish(random: &mut Random, count: usize) -> Vec<Reply> {
    let mut wished = FAULTS.to_vec();
    while wished.len() > count {
        wished.remove(random.below(wished.len()));
    }
    wished
}
