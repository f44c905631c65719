//! What the rules promise of all networks, tried on generated ones.

use second::generate::random::Random;
use second::generate::{case, durations, feasible, fields, file, networks, plans, runs, Case};
use second::network::Network;
use second::plan::{check, Task};
use second::read::read;
use second::refusal::Reply;
use second::timed::run_timed;
use second::turns::{run_turns, Request, Run};
use second::write::write;
use second::zero_delay::zero_delay;

/// A network with zero in all fields past the counts.
fn without_junk(network: &Network) -> Network {
    let mut clean = Network::zero();
    clean.process_count = network.process_count;
    clean.pair_count = network.pair_count;
    clean.channel_count = network.channel_count;
    let processes = network.processes().len();
    clean.processes[..processes].copy_from_slice(network.processes());
    clean.pairs[..network.pairs().len()].copy_from_slice(network.pairs());
    clean.channels[..network.channels().len()].copy_from_slice(network.channels());
    clean.action_counts[..processes].copy_from_slice(&network.action_counts[..processes]);
    for process in 0..processes {
        let actions = network.actions(process);
        clean.actions[process][..actions.len()].copy_from_slice(actions);
    }
    clean
}

#[test]
fn reading_what_was_written_gives_the_network() {
    for number in 0..2000 {
        let network = case(11, number).network;
        let mut out = [0; 2600];
        if let Ok(length) = write(&network, &mut out) {
            assert_eq!(read(&out[..length]), Ok(without_junk(&network)));
        }
    }
}

#[test]
fn writing_what_was_accepted_gives_the_bytes() {
    let mut accepted = 0;
    for number in 0..2000 {
        let file = case(12, number).file;
        if let Ok(network) = read(&file) {
            let mut out = [0; 2600];
            let length = write(&network, &mut out).expect("an accepted network is written");
            assert_eq!(out[..length], file);
            accepted += 1;
        }
    }
    assert!(accepted > 500);
}

#[test]
fn the_writer_refuses_what_the_reader_refuses() {
    for seed in 0..4000 {
        let mut random = Random::new(seed);
        let mut network = networks::rich(&mut random);
        let name = fields::change(&mut random, &mut network);
        let file = file::of(&network);
        let written = write(&network, &mut [0; 2600]);
        assert_eq!(written.err(), read(&file).err(), "seed {seed}: {name}");
    }
}

/// A network that can be planned, with a plan for as many processors as are given.
fn planned(random: &mut Random, processors: u32) -> (Vec<u8>, Vec<u32>) {
    loop {
        let file = plans::plannable(random, processors).1;
        let task = Task::of(&file, processors).expect("the network is sound");
        if let Some(plan) = feasible::planned(&file, &task, processors) {
            return (file, plan);
        }
    }
}

#[test]
fn plans_of_the_planner_are_accepted() {
    let mut random = Random::new(3);
    for _ in 0..100 {
        let processors = random.within(1, 4);
        let (file, words) = planned(&mut random, processors);
        assert_eq!(check(&file, processors, &words), Ok(()));
    }
}

#[test]
fn turns_and_zero_delay_give_the_same() {
    let mut random = Random::new(4);
    for _ in 0..100 {
        let processors = random.within(1, 4);
        let (file, plan) = planned(&mut random, processors);
        let frames = random.within(1, 4);
        let words = plan.len() * frames as usize;
        let input = runs::samples(&mut random, words);
        let (mut wanted, mut output) = (vec![7; words], vec![7; words]);
        let left = zero_delay(&file, frames, &input, &mut wanted).expect("the run is done");
        let enough = 25 * words * processors as usize;
        let round = |turn: usize| turn as u32 % processors;
        let turns: Vec<u32> = (0..enough).map(round).collect();
        let request = Request {
            file: &file,
            processors,
            frames,
            plan: &plan,
            input: &input,
            turns: &turns,
        };
        let ran = run_turns(&request, &mut output).expect("the run is done");
        assert_eq!((ran.frames_finished, ran.jobs_finished), (frames, 0));
        assert!(ran.working_turns <= 25 * words / 2);
        assert_eq!(ran.working_turns + ran.waiting_turns, enough);
        assert_eq!(ran.left, left);
        assert_eq!(output, wanted);
    }
}

/// When a job of a timed run starts, by the rule: nothing that it waits for ends later.
fn timed_start(task: &Task, plan: &[u32], times: &[u32], job: usize) -> u32 {
    let start = |job: usize| plan[2 * job + 1];
    let earlier = |&other: &usize| plan[2 * other] == plan[2 * job] && start(other) < start(job);
    let jobs = 0..task.jobs().len();
    let before = jobs.filter(earlier).max_by_key(|&other| start(other));
    let waits_for = task.predecessors(job).chain(before);
    let ends = waits_for.map(|other| times[2 * other + 1]);
    ends.fold(task.jobs()[job].release, u32::max)
}

#[test]
fn timed_runs_keep_to_the_plan() {
    let mut random = Random::new(5);
    for _ in 0..200 {
        let processors = random.within(1, 4);
        let (file, mut plan) = planned(&mut random, processors);
        let task = Task::of(&file, processors).expect("the network is sound");
        feasible::moved(&mut random, &task, processors, &mut plan);
        let mut durations = durations::sound(&mut random, &task);
        let mut times = vec![0; plan.len()];
        let done = run_timed(&file, processors, &plan, &durations, &mut times);
        assert_eq!(done, Ok(()));
        for (job, duration) in durations.iter().enumerate() {
            let start = timed_start(&task, &plan, &times, job);
            assert_eq!(times[2 * job..2 * job + 2], [start, start + duration]);
            assert!(start <= plan[2 * job + 1]);
        }
        let last = durations.len() - 1;
        durations[last] = task.jobs()[last].budget + 1;
        let late = run_timed(&file, processors, &plan, &durations, &mut times);
        assert_eq!(late, Err(Reply::Duration.at(last)));
    }
}

/// The request of a generated case.
fn request(case: &Case) -> Request<'_> {
    Request {
        file: &case.subject.file,
        processors: case.turn_run.given.processors,
        frames: case.turn_run.run.frames,
        plan: &case.turn_run.given.plan,
        input: &case.turn_run.run.input,
        turns: &case.turn_run.turns,
    }
}

#[test]
fn finished_frames_are_those_of_zero_delay() {
    let mut finished = 0;
    for number in 0..1500 {
        let case = case(13, number);
        let request = request(&case);
        let mut output = vec![7; case.turn_run.run.output_length];
        let Ok(ran) = run_turns(&request, &mut output) else {
            continue;
        };
        let frames = ran.frames_finished;
        if frames == 0 {
            continue;
        }
        let task = Task::of(request.file, request.processors).expect("the network is sound");
        let words = task.plan_words() * frames as usize;
        let mut wanted = vec![7; words];
        let left = zero_delay(request.file, frames, request.input, &mut wanted);
        assert_eq!(output[..words], wanted);
        if frames == request.frames {
            assert_eq!(Ok(ran.left), left);
            finished += 1;
        }
        assert!(ran.working_turns <= 25 * task.jobs().len() * request.frames as usize);
    }
    assert!(finished > 100);
}

#[test]
fn a_round_of_turns_works() {
    for number in 0..600 {
        let case = case(14, number);
        let request = request(&case);
        if run_turns(&request, &mut vec![0; case.turn_run.run.output_length]).is_err() {
            continue;
        }
        let task = Task::of(request.file, request.processors).expect("the network is sound");
        let plan = &request.plan[..task.plan_words()];
        let mut output = vec![0; task.plan_words() * request.frames as usize];
        let mut run = Run::of(&task, plan, request.frames);
        for &turn in request.turns {
            run.turn(turn as usize, request.input, &mut output);
        }
        while !run.is_complete() {
            let mut worked = false;
            for processor in 0..request.processors {
                worked |= run.turn(processor as usize, request.input, &mut output);
            }
            assert!(worked);
        }
    }
}
