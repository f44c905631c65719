//! The turn run: each turn names a processor, which starts a job, does one action, or waits.

use crate::machine::{Final, Machine, Program};
use crate::network::PROCESSES;
use crate::plan::{check_plan, planned_orders, Task};
use crate::refusal::{Refusal, Reply};
use crate::rules;
use crate::samples::{self, Sample};

/// What a turn run is asked to do.
#[derive(Clone, Copy, Debug)]
pub struct Request<'a> {
    pub file: &'a [u8],
    pub processors: u32,
    pub frames: u32,
    pub plan: &'a [u32],
    pub input: &'a [u32],
    pub turns: &'a [u32],
}

/// What a turn run returns.
#[derive(Clone, Debug, PartialEq, Eq)]
pub struct TurnsRan {
    pub frames_finished: u32,
    pub jobs_finished: u32,
    pub working_turns: usize,
    pub waiting_turns: usize,
    pub left: Final,
}

/// Runs the turns asked for, with output samples into `output`.
pub fn run_turns(request: &Request, output: &mut [u32]) -> Result<TurnsRan, Refusal> {
    if !rules::FRAMES.contains(&request.frames) {
        return Err(Reply::Range.at(0));
    }
    let task = Task::of(request.file, request.processors)?;
    let words = task.plan_words() * request.frames as usize;
    let (Some(plan), Some(input), Some(output)) = (
        request.plan.get(..task.plan_words()),
        request.input.get(..words),
        output.get_mut(..words),
    ) else {
        return Err(Reply::ShortBuffer.at(0));
    };
    check_plan(&task, request.processors, plan)?;
    samples::check(input)?;
    let beyond = |&turn: &u32| turn >= request.processors;
    if let Some(turn) = request.turns.iter().position(beyond) {
        return Err(Reply::Turn.at(turn));
    }
    output.fill(0);
    let mut run = Run::of(&task, plan, request.frames);
    for &turn in request.turns {
        run.turn(turn as usize, input, output);
    }
    Ok(run.finish())
}

/// A job under way.
#[derive(Clone, Copy, Debug)]
struct UnderWay {
    job: usize,
    place: usize,
    output: Sample,
}

/// A processor: its jobs in planned order, how many it has begun in this frame, the one under way.
#[derive(Clone, Debug)]
struct Processor {
    order: Vec<usize>,
    begun: usize,
    under_way: Option<UnderWay>,
}

/// A turn run in progress.
pub struct Run<'a> {
    task: &'a Task,
    programs: [Program; PROCESSES],
    machine: Machine,
    processors: Vec<Processor>,
    frames: u32,
    frames_finished: u32,
    finished: u128,
    working_turns: usize,
    waiting_turns: usize,
}

impl<'a> Run<'a> {
    /// A run of an accepted plan, before the first turn.
    pub fn of(task: &'a Task, plan: &[u32], frames: u32) -> Self {
        let at_rest = |order| Processor {
            order,
            begun: 0,
            under_way: None,
        };
        Run {
            task,
            programs: std::array::from_fn(|process| Program::of(&task.network, process)),
            machine: Machine::of(&task.network),
            processors: planned_orders(plan).into_iter().map(at_rest).collect(),
            frames,
            frames_finished: 0,
            finished: 0,
            working_turns: 0,
            waiting_turns: 0,
        }
    }

    fn process_of(&self, job: usize) -> usize {
        self.task.jobs()[job].process as usize
    }

    /// Whether all frames have finished.
    pub fn is_complete(&self) -> bool {
        self.frames_finished == self.frames
    }

    /// Does one turn and tells whether it worked.
    pub fn turn(&mut self, processor: usize, input: &[u32], output: &mut [u32]) -> bool {
        let moved = match self.processors[processor].under_way {
            Some(job) => Some(self.act(job, input)),
            None => self.start(processor),
        };
        let Some(moved) = moved else {
            self.waiting_turns += 1;
            return false;
        };
        self.working_turns += 1;
        let program = &self.programs[self.process_of(moved.job)];
        if moved.place < program.actions().len() {
            self.processors[processor].under_way = Some(moved);
        } else {
            self.processors[processor].under_way = None;
            let sample = self.sample_place(moved.job);
            moved.output.store(&mut output[sample..sample + 2]);
            self.finish_job(moved.job);
        }
        true
    }

    /// The place of a job's samples in this frame.
    fn sample_place(&self, job: usize) -> usize {
        2 * (self.frames_finished as usize * self.task.jobs().len() + job)
    }

    /// Does one action of a job under way.
    fn act(&mut self, mut under_way: UnderWay, input: &[u32]) -> UnderWay {
        let process = self.process_of(under_way.job);
        let action = self.programs[process].actions()[under_way.place];
        let sample = Sample::of(&input[self.sample_place(under_way.job)..]);
        under_way.place += self
            .machine
            .step(process, action, sample, &mut under_way.output);
        under_way
    }

    /// Starts the next job of a processor if all that precede it have finished.
    fn start(&mut self, processor: usize) -> Option<UnderWay> {
        if self.is_complete() {
            return None;
        }
        let processor = &mut self.processors[processor];
        let &job = processor.order.get(processor.begun)?;
        if self.task.before[job] & !self.finished != 0 {
            return None;
        }
        processor.begun += 1;
        Some(UnderWay {
            job,
            place: 0,
            output: Sample::default(),
        })
    }

    /// Marks a job finished; the next frame begins when it was the last of this one.
    fn finish_job(&mut self, job: usize) {
        self.finished |= 1 << job;
        if self.finished.count_ones() as usize == self.task.jobs().len() {
            self.finished = 0;
            self.frames_finished += 1;
            for processor in &mut self.processors {
                processor.begun = 0;
            }
        }
    }

    fn finish(&self) -> TurnsRan {
        TurnsRan {
            frames_finished: self.frames_finished,
            jobs_finished: self.finished.count_ones(),
            working_turns: self.working_turns,
            waiting_turns: self.waiting_turns,
            left: self.machine.finish(),
        }
    }
}
