//! Plans without fault.

use super::random::Random;
use crate::plan::{self, Task};

/// A plan in the making: jobs in any order that keeps to precedence, each behind the last job of
/// its processor.
struct Draft<'a> {
    task: &'a Task,
    placed: u128,
    words: Vec<u32>,
    /// The end of the last job on each processor.
    free_from: Vec<u32>,
}

impl Draft<'_> {
    fn end(&self, job: usize) -> u32 {
        self.words[2 * job + 1] + self.task.jobs()[job].budget
    }

    /// Any job whose predecessors are placed, or that of least deadline.
    fn choose(&self, random: &mut Random, orderly: usize) -> usize {
        let jobs = self.task.jobs();
        let is_ready =
            |&job: &usize| self.placed >> job & 1 == 0 && self.task.before[job] & !self.placed == 0;
        let ready: Vec<usize> = (0..jobs.len()).filter(is_ready).collect();
        let least = ready.iter().min_by_key(|&&job| jobs[job].deadline);
        match least {
            Some(&job) if random.chance(orderly) => job,
            _ => random.pick(&ready),
        }
    }

    /// Places a job on a processor, perhaps later than it could start. Tells whether it keeps its
    /// deadline.
    fn place(&mut self, job: usize, processor: usize, delay: u32) -> bool {
        let described = self.task.jobs()[job];
        let ends = self.task.predecessors(job).map(|lower| self.end(lower));
        let ready = ends.fold(described.release, u32::max);
        let start = ready.max(self.free_from[processor]) + delay;
        self.words[2 * job] = processor as u32;
        self.words[2 * job + 1] = start;
        self.free_from[processor] = self.end(job);
        self.placed |= 1 << job;
        self.end(job) <= described.deadline
    }
}

/// A plan drawn by lot or the planner's own, perhaps with jobs moved; none if neither is found.
pub fn any(random: &mut Random, file: &[u8], task: &Task, processors: u32) -> Option<Vec<u32>> {
    let by_lot = if random.chance(50) {
        drawn(random, task, processors)
    } else {
        None
    };
    let mut words = by_lot.or_else(|| planned(file, task, processors))?;
    if random.chance(50) {
        moved(random, task, processors, &mut words);
    }
    Some(words)
}

/// A plan drawn by lot, unless it misses a deadline.
pub fn drawn(random: &mut Random, task: &Task, processors: u32) -> Option<Vec<u32>> {
    let mut draft = Draft {
        task,
        placed: 0,
        words: vec![0; task.plan_words()],
        free_from: vec![0; processors as usize],
    };
    let orderly = random.pick(&[0, 50, 90, 100]);
    let (idle, longest) = (random.pick(&[0, 0, 10, 40]), random.within(1, 9));
    for _ in task.jobs() {
        let job = draft.choose(random, orderly);
        let processor = random.below(processors as usize);
        let delay = if random.chance(idle) {
            random.within(1, longest)
        } else {
            0
        };
        if !draft.place(job, processor, delay) {
            return None;
        }
    }
    Some(draft.words)
}

/// The planner's own plan, if its rule misses no deadline.
pub fn planned(file: &[u8], task: &Task, processors: u32) -> Option<Vec<u32>> {
    let mut words = vec![0; task.plan_words()];
    plan::plan(file, processors, &mut words).ok()?;
    Some(words)
}

/// Starts jobs of a plan later where that makes no fault, and gives the processors other numbers.
pub fn moved(random: &mut Random, task: &Task, processors: u32, plan: &mut [u32]) {
    let mut by_start: Vec<usize> = (0..task.jobs().len()).collect();
    by_start.sort_by_key(|&job| plan[2 * job + 1]);
    let percent = random.pick(&[0, 10, 50, 100]);
    for place in (0..by_start.len()).rev() {
        if random.chance(percent) {
            let job = by_start[place];
            let latest = latest(task, plan, job, &by_start[place + 1..]);
            plan[2 * job + 1] = random.near_ends(plan[2 * job + 1], latest);
        }
    }
    let mut numbers: Vec<u32> = (0..processors).collect();
    random.shuffle(&mut numbers);
    for words in plan.chunks_exact_mut(2) {
        words[0] = numbers[words[0] as usize];
    }
}

/// The latest start of a job, with those that start after it where they are.
fn latest(task: &Task, plan: &[u32], job: usize, behind: &[usize]) -> u32 {
    let described = task.jobs()[job];
    let waits =
        |other: usize| task.before[other] >> job & 1 == 1 || plan[2 * other] == plan[2 * job];
    let waiting = behind.iter().filter(|&&other| waits(other));
    let starts = waiting.map(|&other| plan[2 * other + 1]);
    starts.fold(described.deadline, u32::min) - described.budget
}

#[cfg(test)]
mod tests {
    use super::*;
    use crate::generate::plans;

    #[test]
    fn feasible_plans_are_accepted() {
        let (mut by_lot, mut by_rule) = (0, 0);
        for seed in 0..400 {
            let mut random = Random::new(seed);
            let processors = random.within(1, 4);
            let file = plans::plannable(&mut random, processors).1;
            let task = Task::of(&file, processors).expect("the network is sound");
            let drawn = drawn(&mut random, &task, processors);
            let planned = planned(&file, &task, processors);
            by_lot += usize::from(drawn.is_some());
            by_rule += usize::from(planned.is_some());
            for mut words in drawn.into_iter().chain(planned) {
                assert_eq!(plan::check(&file, processors, &words), Ok(()));
                moved(&mut random, &task, processors, &mut words);
                assert_eq!(plan::check(&file, processors, &words), Ok(()), "{seed}");
            }
        }
        assert!(by_lot > 80 && by_rule > 200, "{by_lot}, {by_rule}");
    }
}
