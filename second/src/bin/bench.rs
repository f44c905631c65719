//! Times the library beside this implementation: for each call the best of several rounds, the two
//! taken in turn, with cleared memory.

#![forbid(unsafe_code)]

use std::hint::black_box;
use std::time::{Duration, Instant};

use second::generate::{
    durations, feasible, file, networks, programs::Style, random::Random, runs, turns,
};
use second::network::Network;
use second::plan::Task;
use second::timed::run_timed;
use second::turns::run_turns;
use second::{as_library, frame, graph, listing, plan, read, write, zero_delay};

const ROUNDS: usize = 25;
/// How long one timing lasts, about.
const ROUND: Duration = Duration::from_millis(8);
const FRAMES: u32 = 100;
const PROCESSORS: u32 = 4;
/// The number of processors that the lister plans for.
const LISTED: u32 = 2;

fn main() {
    println!(
        "{:<38} {:>12} {:>12} {:>7}",
        "", "library", "ordinary", "ratio"
    );
    let mut random = Random::new(1);
    let longest = networks::longest(&mut random);
    bench_files(&longest);
    bench_graph("graph, 128 jobs, all related", &longest);
    bench_graph("graph, 128 jobs, few pairs", &few_pairs(&mut random));
    for (name, style) in [
        ("zero-delay 128 x 100, mixed", Style::Mixed),
        ("zero-delay 128 x 100, channels", Style::Channels),
        ("zero-delay 128 x 100, arithmetic", Style::Arithmetic),
    ] {
        let network = networks::full(&mut random, style);
        let input = runs::samples(&mut random, 2 * frame::JOBS * FRAMES as usize);
        bench_run(name, &network, &input);
    }
    let full = |random: &mut Random| networks::full(random, Style::Mixed);
    let related = plannable(&mut random, PROCESSORS, full);
    let few = plannable(&mut random, PROCESSORS, few_pairs);
    bench_planner("plan, 128 jobs, all related", &related);
    bench_planner("plan, 128 jobs, few pairs", &few);
    bench_checker("check, 128 jobs, all related", &related);
    bench_checker("check, 128 jobs, few pairs", &few);
    for (planned, pairs) in [(&related, "all related"), (&few, "few pairs")] {
        let words = planned.plan.len() * FRAMES as usize;
        let run = runs::Run {
            frames: FRAMES,
            input: runs::samples(&mut random, words),
            output_length: words,
        };
        bench_turns(&format!("turns 128 x 100, {pairs}"), planned, &run, true);
        let name = format!("turns 128 x 100, {pairs}, waits");
        bench_turns(&name, planned, &run, false);
    }
    for (planned, pairs) in [(&related, "all related"), (&few, "few pairs")] {
        bench_timed(&format!("timed, 128 jobs, {pairs}"), planned, &mut random);
    }
    let few = plannable(&mut random, LISTED, few_pairs);
    bench_lister("list, 128 jobs, all related", &related);
    bench_lister("list, 128 jobs, few pairs", &few);
}

/// A file with a plan.
struct Planned {
    file: Vec<u8>,
    plan: Vec<u32>,
}

/// The first of such networks that the planner plans for so many processors.
fn plannable(
    random: &mut Random,
    processors: u32,
    network: impl Fn(&mut Random) -> Network,
) -> Planned {
    loop {
        let file = file::of(&network(random));
        let task = Task::of(&file, processors).expect("the network is sound");
        if let Some(plan) = feasible::planned(&file, &task, processors) {
            return Planned { file, plan };
        }
    }
}

/// A network of 128 jobs with pairs between some processes only.
fn few_pairs(random: &mut Random) -> Network {
    loop {
        let network = networks::of_jobs(random, frame::JOBS);
        if network.process_count == 12 && (10..20).contains(&network.pair_count) {
            return network;
        }
    }
}

fn bench_files(network: &Network) {
    let file = file::of(network);
    assert_eq!(file.len(), 2600);
    bench(
        "read 2,600 bytes",
        &mut [0u8; 0],
        |_| _ = black_box(fppn::read(black_box(&file))),
        |_| _ = black_box(read::read(black_box(&file))),
    );
    let for_library = as_library::network(network);
    bench(
        "write 2,600 bytes",
        &mut [0u8; 2600],
        |out| _ = black_box(fppn::write(black_box(&for_library), out)),
        |out| _ = black_box(write::write(black_box(network), out)),
    );
}

fn bench_graph(name: &str, network: &Network) {
    let file = file::of(network);
    bench(
        name,
        &mut [0u8; 0],
        |_| _ = black_box(fppn::graph(black_box(&file))),
        |_| _ = black_box(graph::graph(black_box(&file))),
    );
}

fn bench_run(name: &str, network: &Network, input: &[u32]) {
    let file = file::of(network);
    let mut output = vec![0u32; input.len()];
    bench(
        name,
        &mut output,
        |out| {
            _ = black_box(fppn::zero_delay(
                black_box(&file),
                FRAMES,
                black_box(input),
                out,
            ))
        },
        |out| {
            _ = black_box(zero_delay::zero_delay(
                black_box(&file),
                FRAMES,
                black_box(input),
                out,
            ))
        },
    );
}

fn bench_planner(name: &str, planned: &Planned) {
    let file = &planned.file;
    bench(
        name,
        &mut vec![0u32; planned.plan.len()],
        |out| _ = black_box(fppn::plan(black_box(file), PROCESSORS, out)),
        |out| _ = black_box(plan::plan(black_box(file), PROCESSORS, out)),
    );
}

fn bench_checker(name: &str, planned: &Planned) {
    let Planned { file, plan } = planned;
    bench(
        name,
        &mut [0u32; 0],
        |_| _ = black_box(fppn::check(black_box(file), PROCESSORS, black_box(plan))),
        |_| _ = black_box(plan::check(black_box(file), PROCESSORS, black_box(plan))),
    );
}

/// Turns that go round until the run has finished; those that would wait are left out of a busy
/// list.
fn bench_turns(name: &str, planned: &Planned, run: &runs::Run, busy: bool) {
    let Planned { file, plan } = planned;
    let task = Task::of(file, PROCESSORS).expect("the network is sound");
    let round = |last| (last + 1) % PROCESSORS;
    let turns = turns::finishing(&task, plan, run, busy, round);
    let asked = fppn::Turns {
        file,
        processors: PROCESSORS,
        frames: FRAMES,
        plan,
        input: &run.input,
        turns: &turns,
    };
    let request = as_library::request(&asked);
    bench(
        name,
        &mut vec![0u32; run.output_length],
        |out| _ = black_box(fppn::turns(black_box(&asked), out)),
        |out| _ = black_box(run_turns(black_box(&request), out)),
    );
}

fn bench_timed(name: &str, planned: &Planned, random: &mut Random) {
    let Planned { file, plan } = planned;
    let task = Task::of(file, PROCESSORS).expect("the network is sound");
    let durations = durations::sound(random, &task);
    bench(
        name,
        &mut vec![0u32; plan.len()],
        |out| {
            _ = black_box(fppn::timed(
                black_box(file),
                PROCESSORS,
                black_box(plan),
                black_box(&durations),
                out,
            ))
        },
        |out| {
            _ = black_box(run_timed(
                black_box(file),
                PROCESSORS,
                black_box(plan),
                black_box(&durations),
                out,
            ))
        },
    );
}

fn bench_lister(name: &str, planned: &Planned) {
    let file = &planned.file;
    let text = listing::listing(file).expect("the network is planned");
    bench(
        name,
        &mut vec![0u8; text.len()],
        |out| _ = black_box(fppn::list(black_box(file), out)),
        |out| _ = black_box(listing::list(black_box(file), out)),
    );
}

/// Times both calls in turn and prints the best of each.
fn bench<T: Copy + Default>(
    name: &str,
    memory: &mut [T],
    mut library: impl FnMut(&mut [T]),
    mut ordinary: impl FnMut(&mut [T]),
) {
    let once = time(1, memory, &mut library).max(time(1, memory, &mut ordinary));
    let calls = (ROUND.as_nanos() as f64 / once).ceil() as u32;
    let (mut best_library, mut best_ordinary) = (f64::MAX, f64::MAX);
    for _ in 0..ROUNDS {
        best_library = best_library.min(time(calls, memory, &mut library));
        best_ordinary = best_ordinary.min(time(calls, memory, &mut ordinary));
    }
    println!(
        "{name:<38} {:>9.2} us {:>9.2} us {:>7.2}",
        best_library / 1000.0,
        best_ordinary / 1000.0,
        best_library / best_ordinary
    );
}

/// Nanoseconds of one call, over so many calls.
fn time<T: Copy + Default>(calls: u32, memory: &mut [T], call: &mut impl FnMut(&mut [T])) -> f64 {
    memory.fill(T::default());
    let start = Instant::now();
    for _ in 0..calls {
        call(black_box(&mut *memory));
    }
    start.elapsed().as_nanos() as f64 / f64::from(calls)
}
