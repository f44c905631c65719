//! Timed runs to ask for: a plan, and a duration for each job.

use super::plans::{Given, Subject};
use super::random::Random;
use super::runs;
use crate::plan::Task;

/// A timed run to ask for.
#[derive(Clone, Debug, PartialEq, Eq)]
pub struct TimedRun {
    pub given: Given,
    pub durations: Vec<u32>,
    pub out_length: usize,
}

impl TimedRun {
    pub fn any(random: &mut Random, subject: &Subject) -> Self {
        let given = match Given::feasible(random, subject) {
            Some(given) if random.chance(85) => given,
            _ => Given::any(random, subject),
        };
        let jobs = subject.jobs(random);
        let mut durations = match &subject.task {
            Some(task) => of_task(random, task),
            None => (0..jobs).map(|_| random.word()).collect(),
        };
        runs::lend(random, &mut durations);
        TimedRun {
            given,
            durations,
            out_length: runs::length(random, 2 * jobs),
        }
    }
}

/// Durations that are sound, or one or two of them not.
fn of_task(random: &mut Random, task: &Task) -> Vec<u32> {
    let mut durations = sound(random, task);
    if random.chance(12) {
        for _ in 0..random.within(1, 2) {
            let job = random.below(durations.len());
            let budget = task.jobs()[job].budget;
            durations[job] = match random.below(3) {
                0 => budget + 1,
                1 => random.pick(&[u32::MAX, 1 << 31, budget + 256]),
                _ => random.word().max(budget + 1),
            };
        }
    }
    durations
}

/// A duration for each job, from 0 to its budget: all of one kind, or any.
pub fn sound(random: &mut Random, task: &Task) -> Vec<u32> {
    let kind = random.below(5);
    let budgets = task.jobs().iter().map(|job| job.budget);
    budgets
        .map(|budget| match kind {
            0 => 0,
            1 => budget,
            2 => random.within(0, budget),
            _ => random.near_ends(0, budget),
        })
        .collect()
}
