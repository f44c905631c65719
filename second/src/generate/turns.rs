//! Turn runs to ask for: a plan, samples and a list of turns.

use super::faults;
use super::plans::{Given, Subject};
use super::random::Random;
use super::runs::{self, Run};
use crate::plan::{self, Task};
use crate::rules::{FRAMES, PROCESSORS};
use crate::{samples, turns};

/// A turn run to ask for.
#[derive(Clone, Debug, PartialEq, Eq)]
pub struct TurnRun {
    pub given: Given,
    pub run: Run,
    pub turns: Vec<u32>,
}

/// The jobs that a run mostly has at most, over all its frames.
const JOBS: usize = 300;
/// A run is not going to finish after so many waiting turns on end.
const STUCK: usize = 200;

impl TurnRun {
    pub fn any(random: &mut Random, subject: &Subject) -> Self {
        let jobs = subject.jobs(random);
        let frames = frames(random, jobs);
        let run = runs::of_frames(random, jobs, frames);
        let given = match Given::feasible(random, subject) {
            Some(given) if random.chance(85) => given,
            _ => Given::any(random, subject),
        };
        let mut turns = list(random, subject.task.as_ref(), &given, &run);
        if random.chance(10) {
            spoil(random, &mut turns, given.processors);
        }
        TurnRun { given, run, turns }
    }
}

fn frames(random: &mut Random, jobs: usize) -> u32 {
    let few = (JOBS / jobs.max(1)).clamp(1, 6) as u32;
    match random.below(100) {
        0..=1 => random.pick(&[0, *FRAMES.end() + 1, 256, 1 << 31, u32::MAX]),
        2 if jobs <= 10 => *FRAMES.end(),
        _ => random.within(1, few),
    }
}

/// Puts a processor that is not there into a turn or two.
fn spoil(random: &mut Random, turns: &mut Vec<u32>, processors: u32) {
    turns.push(0);
    for _ in 0..random.within(1, 2) {
        let index = random.below(turns.len());
        turns[index] = faults::beyond(random, processors.min(*PROCESSORS.end()));
    }
}

/// Who comes next.
#[derive(Clone, Debug)]
enum Manner {
    /// Each processor after the other.
    Round,
    /// Any of these.
    Lot(Vec<u32>),
    /// The same as before, in so many of a hundred turns.
    Stay(usize),
}

impl Manner {
    /// Also one that leaves processors out.
    fn any(random: &mut Random, processors: u32) -> Self {
        match random.below(5) {
            0 => Manner::Round,
            1..=2 => Manner::Lot((0..processors).collect()),
            3 => Manner::Stay(random.pick(&[50, 90])),
            _ => {
                let mut some: Vec<u32> = (0..processors).collect();
                random.shuffle(&mut some);
                some.truncate(random.within(1, processors) as usize);
                Manner::Lot(some)
            }
        }
    }

    fn next(&self, random: &mut Random, last: u32, processors: u32) -> u32 {
        match self {
            Manner::Round => (last + 1) % processors,
            Manner::Lot(some) => random.pick(some),
            Manner::Stay(percent) if random.chance(*percent) => last,
            Manner::Stay(_) => random.within(0, processors - 1),
        }
    }
}

/// A list of turns: any, or one that finishes the run where that can be.
fn list(random: &mut Random, task: Option<&Task>, given: &Given, run: &Run) -> Vec<u32> {
    let processors = given.processors.clamp(1, *PROCESSORS.end());
    let manner = Manner::any(random, processors);
    match task {
        Some(task) if random.chance(60) && is_sound(task, given, run) => {
            let busy = random.chance(50);
            let next = |last| manner.next(random, last, processors);
            let mut turns = finishing(task, &given.plan, run, busy, next);
            extend(random, &mut turns, &manner, processors, 10);
            turns
        }
        _ => {
            let mut turns = Vec::new();
            let most = random.pick(&[1, 20, 200, 2000]);
            extend(random, &mut turns, &manner, processors, most);
            turns
        }
    }
}

/// Adds fewer turns than `most`.
fn extend(
    random: &mut Random,
    turns: &mut Vec<u32>,
    manner: &Manner,
    processors: u32,
    most: usize,
) {
    for _ in 0..random.below(most) {
        let last = turns.last().copied().unwrap_or(0);
        turns.push(manner.next(random, last, processors));
    }
}

/// Whether all but the turns of a run is sound.
fn is_sound(task: &Task, given: &Given, run: &Run) -> bool {
    let words = task.plan_words() * run.frames as usize;
    let (Some(plan), Some(input)) = (given.plan.get(..task.plan_words()), run.input.get(..words))
    else {
        return false;
    };
    FRAMES.contains(&run.frames)
        && PROCESSORS.contains(&given.processors)
        && plan::check_plan(task, given.processors, plan).is_ok()
        && samples::check(input).is_ok()
}

/// Turns until the run of an accepted plan has finished or is stuck, each chosen after the one
/// before it. Those that would wait are left out of a busy list.
pub fn finishing(
    task: &Task,
    plan: &[u32],
    run: &Run,
    busy: bool,
    mut next: impl FnMut(u32) -> u32,
) -> Vec<u32> {
    let mut output = vec![0; task.plan_words() * run.frames as usize];
    let mut running = turns::Run::of(task, &plan[..task.plan_words()], run.frames);
    let (mut turns, mut last, mut waited) = (Vec::new(), 0, 0);
    while !running.is_complete() && waited < STUCK {
        last = next(last);
        let worked = running.turn(last as usize, &run.input, &mut output);
        waited = if worked { 0 } else { waited + 1 };
        if worked || !busy {
            turns.push(last);
        }
    }
    turns
}

#[cfg(test)]
mod tests {
    use super::*;
    use crate::generate::case;

    /// What became of a run that was done.
    #[derive(Debug, Default)]
    struct Met {
        without_turns: usize,
        first_frame: usize,
        between: usize,
        finished: usize,
        without_waiting: usize,
        unfair: usize,
    }

    #[test]
    fn runs_of_every_kind_occur() {
        let mut met = Met::default();
        for number in 0..1500 {
            let case = case(9, number);
            let TurnRun { given, run, turns } = &case.turn_run;
            let request = turns::Request {
                file: &case.subject.file,
                processors: given.processors,
                frames: run.frames,
                plan: &given.plan,
                input: &run.input,
                turns,
            };
            let mut output = vec![0; run.output_length];
            let Ok(ran) = turns::run_turns(&request, &mut output) else {
                continue;
            };
            let finished = ran.frames_finished == run.frames;
            let unfair = (0..given.processors).any(|processor| !turns.contains(&processor));
            met.without_turns += usize::from(turns.is_empty());
            met.first_frame += usize::from(ran.frames_finished == 0 && ran.jobs_finished > 0);
            met.between += usize::from(!finished && ran.frames_finished > 0);
            met.finished += usize::from(finished);
            met.without_waiting += usize::from(ran.working_turns > 0 && ran.waiting_turns == 0);
            met.unfair += usize::from(unfair && !turns.is_empty());
        }
        let Met {
            without_turns,
            first_frame,
            between,
            finished,
            without_waiting,
            unfair,
        } = met;
        assert!(
            without_turns > 5 && first_frame > 20 && between > 5,
            "{met:?}"
        );
        assert!(
            finished > 50 && without_waiting > 20 && unfair > 20,
            "{met:?}"
        );
    }
}
