//! The timed run: what a plan's jobs do in one frame when each takes a given duration.

use crate::frame::JOBS;
use crate::plan::{check_plan, planned_orders, Task};
use crate::refusal::{Refusal, Reply};

/// Gives start and end of each job, two words a job, at the front of `times`.
pub fn run_timed(
    file: &[u8],
    processors: u32,
    plan: &[u32],
    durations: &[u32],
    times: &mut [u32],
) -> Result<(), Refusal> {
    let task = Task::of(file, processors)?;
    let count = task.jobs().len();
    let (Some(plan), Some(durations), Some(times)) = (
        plan.get(..2 * count),
        durations.get(..count),
        times.get_mut(..2 * count),
    ) else {
        return Err(Reply::ShortBuffer.at(0));
    };
    check_plan(&task, processors, plan)?;
    let mut pairs = durations.iter().zip(task.jobs());
    if let Some(job) = pairs.position(|(&duration, job)| duration > job.budget) {
        return Err(Reply::Duration.at(job));
    }
    let ends = run(&task, plan, durations);
    for (job, words) in times.chunks_exact_mut(2).enumerate() {
        words.copy_from_slice(&[ends[job] - durations[job], ends[job]]);
    }
    Ok(())
}

/// The end of each job. In an accepted plan a job is planned to start after those that precede it
/// and after the one before it on its processor, so going by planned start meets these first.
fn run(task: &Task, plan: &[u32], durations: &[u32]) -> [u32; JOBS] {
    let mut before_on_processor = [None; JOBS];
    for order in planned_orders(plan) {
        for neighbours in order.windows(2) {
            before_on_processor[neighbours[1]] = Some(neighbours[0]);
        }
    }
    let mut jobs: Vec<usize> = (0..task.jobs().len()).collect();
    jobs.sort_by_key(|&job| plan[2 * job + 1]);
    let mut ends = [0; JOBS];
    for job in jobs {
        let waits_for = task.predecessors(job).chain(before_on_processor[job]);
        let release = task.jobs()[job].release;
        let start = waits_for.fold(release, |start, other| start.max(ends[other]));
        ends[job] = start + durations[job];
    }
    ends
}
