//! Calls about plans: networks that can be planned or just not, and plans of every kind for them.

use super::faults::{self, Spoiled};
use super::random::Random;
use super::{feasible, file, networks, runs};
use crate::frame::{self, JOBS, LONGEST};
use crate::network::Network;
use crate::plan::{self, Task};
use crate::rules::PERIOD;

/// A file about whose plans calls are made.
#[derive(Clone, Debug)]
pub struct Subject {
    pub kind: String,
    pub file: Vec<u8>,
    /// The number of processors that its plans are made for.
    pub processors: u32,
    /// Its network and jobs, if the file can be read.
    pub task: Option<Task>,
    /// A plan without fault, if one was found.
    pub feasible: Option<Vec<u32>>,
}

/// What the planner is asked.
#[derive(Clone, Debug, PartialEq, Eq)]
pub struct Wanted {
    pub processors: u32,
    pub out_length: usize,
}

/// A plan that is given to a call, and the number of processors with it.
#[derive(Clone, Debug, PartialEq, Eq)]
pub struct Given {
    pub kind: &'static str,
    pub processors: u32,
    pub plan: Vec<u32>,
}

impl Subject {
    /// The file that is given, or one that can be planned.
    pub fn any(random: &mut Random, given: &[u8]) -> Self {
        let processors = random.within(1, 4);
        let (kind, file) = if random.chance(30) {
            ("the same file".to_string(), given.to_vec())
        } else {
            plannable(random, processors)
        };
        let task = Task::of(&file, processors).ok();
        let feasible = task
            .as_ref()
            .and_then(|task| feasible::any(random, &file, task, processors));
        Subject {
            kind,
            file,
            processors,
            task,
            feasible,
        }
    }

    /// The number of jobs; any number if the file cannot be read.
    pub fn jobs(&self, random: &mut Random) -> usize {
        match &self.task {
            Some(task) => task.jobs().len(),
            None => random.within(1, 130) as usize,
        }
    }
}

/// A sound network, with the name of its kind and its file. Its budgets are cut until the planner
/// finds a plan for so many processors, or until it just misses one.
pub fn plannable(random: &mut Random, processors: u32) -> (String, Vec<u8>) {
    const CUTS: usize = 12;
    let (kind, mut network) = networks::any(random);
    stretch(random, &mut network);
    let mut file = file::of(&network);
    let mut missed = None;
    for cuts in 1..=CUTS {
        if plan::plan(&file, processors, &mut [0; 2 * JOBS]).is_ok() {
            break;
        }
        cut(random, &mut network, cuts == CUTS);
        missed = Some(std::mem::replace(&mut file, file::of(&network)));
    }
    match missed {
        Some(missed) if random.chance(15) => (format!("{kind}, just missed"), missed),
        _ => (format!("{kind}, cut"), file),
    }
}

/// Makes periods and deadlines some times as long, as far as may be, and budgets with them or not.
fn stretch(random: &mut Random, network: &mut Network) {
    let size = frame::size(network.processes()).expect("the network is sound");
    let periods = network.processes().iter().map(|process| process.period);
    let longest = periods.max().unwrap_or(1);
    let times = random.near_ends(1, (LONGEST / size.length).min(*PERIOD.end() / longest));
    let with_budgets = random.chance(20);
    let count = network.processes().len();
    for process in &mut network.processes[..count] {
        process.period *= times;
        process.deadline *= times;
        if with_budgets {
            process.budget *= times;
        }
    }
}

/// Makes some budgets smaller and some deadlines later, or all as far as may be.
fn cut(random: &mut Random, network: &mut Network, all: bool) {
    let count = network.processes().len();
    for process in &mut network.processes[..count] {
        if all || random.chance(25) {
            process.deadline = process.period;
        }
        if all {
            process.budget = 1;
            process.burst = 1;
        } else if random.chance(70) {
            process.budget = process.budget.div_ceil(2);
        }
    }
}

impl Wanted {
    pub fn any(random: &mut Random, subject: &Subject) -> Self {
        let words = 2 * subject.jobs(random);
        Wanted {
            processors: processors(random, subject.processors),
            out_length: runs::length(random, words),
        }
    }
}

/// The number of processors that a call is given: mostly the one that the plan is for.
fn processors(random: &mut Random, planned: u32) -> u32 {
    match random.below(100) {
        0..=84 => planned,
        85..=91 => random.within(1, 4),
        92..=96 => random.within(0, 6),
        _ => random.pick(&[0, 5, 6, 255, 257, (1 << 16) + 2, 1 << 31, u32::MAX]),
    }
}

impl Given {
    /// A plan of any kind.
    pub fn any(random: &mut Random, subject: &Subject) -> Self {
        let (kind, plan) = match (&subject.task, &subject.feasible) {
            (None, _) => ("any words", anything(random)),
            (Some(task), Some(plan)) => spoiled(random, subject.processors, task, plan.clone()),
            (Some(task), None) => ("any places", any_places(random, subject.processors, task)),
        };
        Given::lent(random, subject, kind, plan)
    }

    /// The plan without fault, if there is one.
    pub fn feasible(random: &mut Random, subject: &Subject) -> Option<Self> {
        let plan = subject.feasible.clone()?;
        Some(Given::lent(random, subject, "feasible", plan))
    }

    fn lent(
        random: &mut Random,
        subject: &Subject,
        kind: &'static str,
        mut plan: Vec<u32>,
    ) -> Self {
        runs::lend(random, &mut plan);
        Given {
            kind,
            processors: processors(random, subject.processors),
            plan,
        }
    }
}

/// Any words at all.
fn anything(random: &mut Random) -> Vec<u32> {
    let length = random.below(2 * JOBS + 20);
    (0..length).map(|_| random.word()).collect()
}

/// Each job near one of its own lines, on any processor.
fn any_places(random: &mut Random, processors: u32, task: &Task) -> Vec<u32> {
    let mut plan = vec![0; task.plan_words()];
    for (job, described) in task.jobs().iter().enumerate() {
        plan[2 * job] = random.within(0, processors - 1);
        plan[2 * job + 1] =
            random.near_ends(described.release, described.deadline - described.budget);
    }
    if random.chance(30) {
        let job = random.below(task.jobs().len());
        plan[2 * job] = random.word();
        plan[2 * job + 1] = random.word();
    }
    plan
}

/// A feasible plan, as it is or with faults put into it.
fn spoiled(
    random: &mut Random,
    processors: u32,
    task: &Task,
    mut plan: Vec<u32>,
) -> (&'static str, Vec<u32>) {
    let mut spoiled = Spoiled {
        task,
        processors,
        words: &mut plan,
    };
    let kind = match random.below(20) {
        0..=3 => "feasible",
        4..=8 => {
            let wished = faults::wish(random, 1);
            spoiled.plant(random, &wished, None);
            "one fault"
        }
        9..=12 => {
            let wished = faults::wish(random, 2);
            spoiled.plant(random, &wished, None);
            "two faults of one job"
        }
        13..=16 => {
            let (one, other) = (faults::wish(random, 1), faults::wish(random, 1));
            let spared = spoiled.plant(random, &one, None);
            spoiled.plant(random, &other, spared);
            "faults of two jobs"
        }
        17..=18 => {
            let job = random.below(task.jobs().len());
            spoiled.words[2 * job + 1] = spoiled.start(random, job);
            "another start"
        }
        _ => return ("any places", any_places(random, processors, task)),
    };
    (kind, plan)
}

#[cfg(test)]
mod tests {
    use super::*;
    use crate::plan::{check, plan, FAULTS};
    use crate::refusal::Reply;
    use std::collections::BTreeMap;

    /// The subject and the calls of one seed.
    fn drawn(seed: u64) -> (Subject, Wanted, Vec<Given>) {
        let mut random = Random::new(seed);
        let damaged = crate::generate::case(seed, 0).file;
        let subject = Subject::any(&mut random, &damaged);
        let wanted = Wanted::any(&mut random, &subject);
        let given = (0..3).map(|_| Given::any(&mut random, &subject)).collect();
        (subject, wanted, given)
    }

    #[test]
    fn every_reply_occurs() {
        let (mut planner, mut checker) = ([0; 20], [0; 20]);
        let number = |answer: Result<(), crate::refusal::Refusal>| match answer {
            Ok(()) => 0,
            Err(refusal) => refusal.reply as usize,
        };
        for seed in 0..3000 {
            let (subject, wanted, given) = drawn(seed);
            let mut out = vec![0; wanted.out_length];
            planner[number(plan(&subject.file, wanted.processors, &mut out))] += 1;
            for given in given {
                checker[number(check(&subject.file, given.processors, &given.plan))] += 1;
            }
        }
        let met = |counts: [usize; 20], replies: &[usize]| {
            let of_reply = |reply: &usize| counts[*reply];
            assert!(replies.iter().map(of_reply).min() > Some(3), "{counts:?}");
            let others = (0..20).filter(|reply| !replies.contains(reply));
            assert_eq!(others.map(|reply| counts[reply]).sum::<usize>(), 0);
        };
        met(planner, &[0, 1, 2, 3, 4, 5, 6, 7, 8, 9, 10, 19]);
        met(checker, &(0..=15).collect::<Vec<_>>());
    }

    /// A job has room for its budget before its deadline, so it does not start too early and end
    /// late; and on a processor that is not there it overlaps only a job that is at fault itself.
    const IMPOSSIBLE: [[Reply; 2]; 2] = [
        [Reply::BeforeRelease, Reply::EndsLate],
        [Reply::Processor, Reply::Overlap],
    ];

    #[test]
    fn every_pair_of_faults_occurs() {
        let mut met: BTreeMap<(bool, u32, u32), usize> = BTreeMap::new();
        for seed in 0..3000 {
            let (subject, _, given) = drawn(seed);
            let Some(task) = subject.task else { continue };
            for mut given in given.into_iter().filter(|given| given.kind != "any places") {
                if given.plan.len() < task.plan_words() {
                    continue;
                }
                let spoiled = Spoiled {
                    task: &task,
                    processors: subject.processors,
                    words: &mut given.plan,
                };
                let jobs = 0..task.jobs().len();
                let faults: Vec<Vec<Reply>> = jobs.map(|job| spoiled.faults(job)).collect();
                count(&mut met, &faults);
            }
        }
        for (index, &one) in FAULTS.iter().enumerate() {
            for &other in &FAULTS[index + 1..] {
                let pair = (true, one as u32, other as u32);
                let times = met.get(&pair).copied().unwrap_or(0);
                assert!(
                    times > 3 || IMPOSSIBLE.contains(&[one, other]),
                    "{pair:?}: {times}"
                );
            }
        }
        for one in FAULTS {
            for other in FAULTS {
                let pair = (false, one as u32, other as u32);
                assert!(met.get(&pair) > Some(&3), "{pair:?}: {:?}", met.get(&pair));
            }
        }
    }

    /// Counts the pairs of faults of one job, and those of the least faulty job and another.
    fn count(met: &mut BTreeMap<(bool, u32, u32), usize>, faults: &[Vec<Reply>]) {
        let mut faulty = faults.iter().filter(|of_job| !of_job.is_empty());
        for of_job in faulty.clone() {
            if let [one, other] = of_job[..] {
                *met.entry((true, one as u32, other as u32)).or_default() += 1;
            }
        }
        let Some(least) = faulty.next() else { return };
        let mut others: Vec<u32> = faulty.map(|of_job| of_job[0] as u32).collect();
        others.sort();
        others.dedup();
        for other in others {
            *met.entry((false, least[0] as u32, other)).or_default() += 1;
        }
    }
}
