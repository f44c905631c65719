//! The planner and the plan checker. A plan has two words for each job, processor and start.

use crate::frame::{Frame, Job, JOBS};
use crate::graph::{marked, predecessors, Row};
use crate::network::Network;
use crate::read::read;
use crate::refusal::{Refusal, Reply};
use crate::relation::Relation;
use crate::rules::PROCESSORS;

/// A network with what plans need: its jobs and, for each job, those that precede it.
#[derive(Clone, Debug)]
pub struct Task {
    pub network: Network,
    pub frame: Frame,
    pub before: [Row; JOBS],
}

impl Task {
    /// Judges the number of processors, then the file.
    pub fn of(file: &[u8], processors: u32) -> Result<Self, Refusal> {
        if !PROCESSORS.contains(&processors) {
            return Err(Reply::Range.at(0));
        }
        let network = read(file)?;
        let relation = Relation::of(&network);
        let frame = Frame::of(&network, &relation);
        let before = predecessors(frame.jobs(), &relation.chains());
        Ok(Task {
            network,
            frame,
            before,
        })
    }

    pub fn jobs(&self) -> &[Job] {
        self.frame.jobs()
    }

    /// The numbers of the jobs that precede a job.
    pub fn predecessors(&self, job: usize) -> impl Iterator<Item = usize> {
        marked(self.before[job])
    }

    /// The words of a plan that a call reads or fills.
    pub fn plan_words(&self) -> usize {
        2 * self.jobs().len()
    }
}

/// Plans a network file for `processors` processors into the front of `plan`.
pub fn plan(file: &[u8], processors: u32, plan: &mut [u32]) -> Result<(), Refusal> {
    let task = Task::of(file, processors)?;
    let Some(room) = plan.get_mut(..task.plan_words()) else {
        return Err(Reply::ShortBuffer.at(0));
    };
    room.copy_from_slice(&planned(&task, processors)?[..room.len()]);
    Ok(())
}

/// The words of the planner's plan, with zeros behind them.
pub fn planned(task: &Task, processors: u32) -> Result<[u32; 2 * JOBS], Refusal> {
    let mut planner = Planner::of(task, processors as usize);
    for _ in task.jobs() {
        planner.place_next()?;
    }
    Ok(planner.words)
}

/// A plan in the making.
struct Planner<'a> {
    task: &'a Task,
    /// The jobs that are not placed yet.
    left: Row,
    words: [u32; 2 * JOBS],
    ends: [u32; JOBS],
    /// The end of the last job on each processor.
    free_from: Vec<u32>,
}

impl<'a> Planner<'a> {
    fn of(task: &'a Task, processors: usize) -> Self {
        Planner {
            task,
            left: Row::MAX >> (JOBS - task.jobs().len()),
            words: [0; 2 * JOBS],
            ends: [0; JOBS],
            free_from: vec![0; processors],
        }
    }

    /// Among the jobs whose predecessors are placed, that of least deadline, then least number.
    fn choose(&self) -> usize {
        let jobs = self.task.jobs();
        let ready = marked(self.left).filter(|&job| self.task.before[job] & self.left == 0);
        let chosen = ready.min_by_key(|&job| (jobs[job].deadline, job));
        chosen.expect("the least job not yet placed is ready")
    }

    /// Places one job on the processor where it starts earliest.
    fn place_next(&mut self) -> Result<(), Refusal> {
        let number = self.choose();
        let job = self.task.jobs()[number];
        let predecessors = self.task.predecessors(number);
        let ready = predecessors.fold(job.release, |ready, lower| ready.max(self.ends[lower]));
        let starts = self.free_from.iter().map(|&end| end.max(ready)).enumerate();
        let earliest = starts.min_by_key(|&(processor, start)| (start, processor));
        let (processor, start) = earliest.expect("there is a processor");
        let end = start + job.budget;
        if end > job.deadline {
            return Err(Reply::MissedDeadline.at(number));
        }
        self.words[2 * number] = processor as u32;
        self.words[2 * number + 1] = start;
        self.ends[number] = end;
        self.free_from[processor] = end;
        self.left &= !(1 << number);
        Ok(())
    }
}

/// Judges any plan of a network file.
pub fn check(file: &[u8], processors: u32, plan: &[u32]) -> Result<(), Refusal> {
    let task = Task::of(file, processors)?;
    let Some(plan) = plan.get(..task.plan_words()) else {
        return Err(Reply::ShortBuffer.at(0));
    };
    check_plan(&task, processors, plan)
}

/// Names the least faulty job and its first fault.
pub fn check_plan(task: &Task, processors: u32, plan: &[u32]) -> Result<(), Refusal> {
    let judge = Judge::of(task, processors, plan);
    for job in 0..task.jobs().len() {
        if let Some(fault) = FAULTS.into_iter().find(|&fault| judge.has(fault, job)) {
            return Err(fault.at(job));
        }
    }
    Ok(())
}

/// The faults of a job in a plan, in the order in which they are looked for.
pub const FAULTS: [Reply; 5] = [
    Reply::Processor,
    Reply::BeforeRelease,
    Reply::EndsLate,
    Reply::Overlap,
    Reply::BeforePredecessor,
];

/// Where a plan puts a job.
#[derive(Clone, Copy, Debug)]
struct Place {
    processor: u32,
    start: u64,
    end: u64,
}

impl Place {
    /// The end is computed without a limit, for the words may be any.
    fn of((words, job): (&[u32], &Job)) -> Self {
        let start = u64::from(words[1]);
        Place {
            processor: words[0],
            start,
            end: start + u64::from(job.budget),
        }
    }

    fn overlaps(&self, other: &Place) -> bool {
        self.processor == other.processor && self.start < other.end && other.start < self.end
    }
}

/// A plan under judgement.
#[derive(Clone, Debug)]
pub struct Judge<'a> {
    task: &'a Task,
    processors: u32,
    places: Vec<Place>,
}

impl<'a> Judge<'a> {
    pub fn of(task: &'a Task, processors: u32, plan: &[u32]) -> Self {
        let words = plan.chunks_exact(2).zip(task.jobs());
        Judge {
            task,
            processors,
            places: words.map(Place::of).collect(),
        }
    }

    /// Whether a job has one of the faults, whatever others it has.
    pub fn has(&self, fault: Reply, number: usize) -> bool {
        let (place, job) = (&self.places[number], &self.task.jobs()[number]);
        let mut lower = self.places[..number].iter().enumerate();
        match fault {
            Reply::Processor => place.processor >= self.processors,
            Reply::BeforeRelease => place.start < u64::from(job.release),
            Reply::EndsLate => place.end > u64::from(job.deadline),
            Reply::Overlap => lower.any(|(_, lower)| lower.overlaps(place)),
            Reply::BeforePredecessor => {
                let precedes = |lower: usize| self.task.before[number] >> lower & 1 == 1;
                lower.any(|(number, lower)| place.start < lower.end && precedes(number))
            }
            _ => false,
        }
    }
}

/// The jobs of each processor in planned order: by start.
pub fn planned_orders(plan: &[u32]) -> Vec<Vec<usize>> {
    let mut orders = vec![Vec::new(); *PROCESSORS.end() as usize];
    let mut jobs: Vec<usize> = (0..plan.len() / 2).collect();
    jobs.sort_by_key(|&job| (plan[2 * job + 1], job));
    for job in jobs {
        orders[plan[2 * job] as usize].push(job);
    }
    orders
}
