//! The rules' own examples.

use crate::graph::graph;
use crate::listing::list;
use crate::network::{Network, Pair, Process};
use crate::plan::{check, plan};
use crate::read::read;
use crate::refusal::Reply;
use crate::timed::run_timed;
use crate::turns::{run_turns, Request};
use crate::write::write;
use crate::zero_delay::zero_delay;

/// Network K.
const K: [u8; 67] = [
    0x01, 0x03, 0x14, 0x01, 0x14, 0x03, 0x0A, 0x01, 0x0A, 0x04, 0x14, 0x01, 0x14, 0x06, 0x02, 0x00,
    0x01, 0x01, 0x02, 0x02, 0x00, 0x00, 0x01, 0x02, 0x01, 0x01, 0x02, 0x01, 0x03, 0x05, 0x00, 0x01,
    0x00, 0x07, 0x01, 0x01, 0x00, 0x04, 0x00, 0x00, 0x00, 0x03, 0x03, 0x00, 0x00, 0x01, 0x07, 0x01,
    0x01, 0x00, 0x04, 0x01, 0x00, 0x00, 0x03, 0x03, 0x01, 0x00, 0x01, 0x07, 0x01, 0x01, 0x00, 0x06,
    0x00, 0x00, 0x00,
];
/// K's plan for two processors.
const K_PLAN: [u32; 8] = [0, 0, 0, 3, 0, 7, 0, 13];

/// A file of processes and pairs without channels and actions.
fn file_of(processes: &[[u32; 4]], pairs: &[[u32; 2]]) -> Vec<u8> {
    let mut network = Network::zero();
    network.process_count = processes.len() as u32;
    network.pair_count = pairs.len() as u32;
    for (slot, &[period, burst, deadline, budget]) in network.processes.iter_mut().zip(processes) {
        *slot = Process {
            period,
            burst,
            deadline,
            budget,
        };
    }
    for (slot, &[higher, lower]) in network.pairs.iter_mut().zip(pairs) {
        *slot = Pair { higher, lower };
    }
    let mut out = [0; 200];
    let length = write(&network, &mut out).expect("the network is sound");
    out[..length].to_vec()
}

#[test]
fn k_is_read_and_written() {
    let network = read(&K).expect("K is sound");
    assert_eq!(
        (
            network.process_count,
            network.pair_count,
            network.channel_count
        ),
        (3, 2, 2)
    );
    let mut out = [0xEE; 68];
    assert_eq!(write(&network, &mut out), Ok(67));
    assert_eq!((&out[..67], out[67]), (&K[..], 0xEE));
    assert_eq!(
        write(&network, &mut out[..66]),
        Err(Reply::ShortBuffer.at(0))
    );
}

#[test]
fn files_that_end_early_or_late() {
    assert_eq!(read(&[]), Err(Reply::EndsEarly.at(0)));
    let mut longer = K.to_vec();
    longer.push(0);
    assert_eq!(read(&longer), Err(Reply::LeftOver.at(67)));
    for length in 0..67 {
        let refusal = read(&K[..length]).unwrap_err();
        assert_eq!(refusal, Reply::EndsEarly.at(length));
    }
}

#[test]
fn k_listed() {
    let graph = graph(&K).expect("K is sound");
    assert_eq!(
        (graph.frame.jobs().len(), graph.frame.length, graph.edges),
        (4, 20, 3)
    );
    let listed = [[0, 0, 20, 3], [1, 0, 10, 4], [2, 0, 20, 6], [1, 10, 20, 4]];
    for (job, listed) in graph.frame.jobs().iter().zip(listed) {
        assert_eq!([job.process, job.release, job.deadline, job.budget], listed);
    }
    let mut words = [9; 9];
    assert_eq!(plan(&K, 2, &mut words), Ok(()));
    assert_eq!((&words[..8], words[8]), (&K_PLAN[..], 9));
}

#[test]
fn the_listing_of_k() {
    let listing = "jobs 4 frame 20 edges 3\n\
        0 0 0 20 3 0 0\n\
        1 1 0 10 4 0 3\n\
        2 2 0 20 6 0 7\n\
        3 1 10 20 4 0 13\n";
    let mut out = [0xEE; 90];
    assert_eq!(list(&K, &mut out), Ok(listing.len()));
    assert_eq!(&out[..listing.len()], listing.as_bytes());
    assert!(out[listing.len()..].iter().all(|&byte| byte == 0xEE));
    let mut exact = vec![0; listing.len()];
    assert_eq!(list(&K, &mut exact), Ok(listing.len()));
    assert_eq!(exact, listing.as_bytes());
}

#[test]
fn listings_are_judged_in_order() {
    let mut out = [0xEE; 85];
    let short = Err(Reply::ShortBuffer.at(0));
    assert_eq!(list(&K, &mut out), short);
    assert_eq!(list(&K, &mut []), short);
    let longer = [&K[..], &[0]].concat();
    assert_eq!(list(&longer, &mut out), Err(Reply::LeftOver.at(67)));
    assert_eq!(list(&[], &mut []), Err(Reply::EndsEarly.at(0)));
    let file = file_of(&[[10, 1, 10, 6]; 3], &[]);
    assert_eq!(list(&file, &mut []), Err(Reply::MissedDeadline.at(2)));
    assert_eq!(out, [0xEE; 85]);
}

#[test]
fn k_runs_with_zero_delay() {
    let mut input = [0; 16];
    input[..2].copy_from_slice(&[1, 42]);
    let mut output = [7; 17];
    let left = zero_delay(&K, 2, &input, &mut output).expect("the run is done");
    assert_eq!(
        output,
        [0, 0, 0, 0, 1, 42, 0, 0, 0, 0, 0, 0, 1, 42, 0, 0, 7]
    );
    assert_eq!((left.channels[0].held, left.channels[1].held), (0, 1));
    assert_eq!(left.channels[1].values[0], 42);
    assert_eq!(left.variables[2].words()[..2], [42, 1]);
}

#[test]
fn k_runs_in_turns() {
    let mut input = [0; 16];
    input[..2].copy_from_slice(&[1, 42]);
    let run = |turns: usize| {
        let request = Request {
            file: &K,
            processors: 2,
            frames: 2,
            plan: &K_PLAN,
            input: &input,
            turns: &vec![0; turns],
        };
        let mut output = [7; 16];
        let ran = run_turns(&request, &mut output).expect("the run is done");
        (ran, output)
    };
    let (ran, output) = run(15);
    assert_eq!((ran.frames_finished, ran.jobs_finished), (1, 0));
    assert_eq!((ran.working_turns, ran.waiting_turns), (15, 0));
    assert_eq!(output, [0, 0, 0, 0, 1, 42, 0, 0, 0, 0, 0, 0, 0, 0, 0, 0]);
    let (ran, output) = run(30);
    assert_eq!((ran.frames_finished, ran.jobs_finished), (2, 0));
    assert_eq!((ran.working_turns, ran.waiting_turns), (28, 2));
    assert_eq!(output[12..14], [1, 42]);
}

#[test]
fn plans_of_k_judged() {
    let with = |job: usize, processor: u32, start: u32| {
        let mut plan = K_PLAN;
        plan[2 * job] = processor;
        plan[2 * job + 1] = start;
        check(&K, 2, &plan)
    };
    assert_eq!(check(&K, 2, &K_PLAN), Ok(()));
    assert_eq!(with(1, 0, 2), Err(Reply::Overlap.at(1)));
    assert_eq!(with(1, 1, 2), Err(Reply::BeforePredecessor.at(1)));
    assert_eq!(with(3, 0, 16), Ok(()));
    assert_eq!(with(3, 0, 17), Err(Reply::EndsLate.at(3)));
    assert_eq!(with(3, 0, u32::MAX), Err(Reply::EndsLate.at(3)));
    assert_eq!(with(2, 2, 7), Err(Reply::Processor.at(2)));
    assert_eq!(with(3, 0, 9), Err(Reply::BeforeRelease.at(3)));
}

#[test]
fn k_timed() {
    let mut times = [7; 9];
    assert_eq!(run_timed(&K, 2, &K_PLAN, &[1, 4, 6, 4], &mut times), Ok(()));
    assert_eq!(times, [0, 1, 1, 5, 5, 11, 11, 15, 7]);
    let late = run_timed(&K, 2, &K_PLAN, &[1, 5, 6, 4], &mut times);
    assert_eq!(late, Err(Reply::Duration.at(1)));
}

#[test]
fn three_tasks_on_two_processors() {
    let tasks = [[25, 1, 25, 1], [25, 1, 25, 12], [25, 1, 25, 6]];
    let file = file_of(&tasks, &[[0, 1], [0, 2]]);
    let mut words = [0; 6];
    assert_eq!(plan(&file, 2, &mut words), Ok(()));
    assert_eq!(words, [0, 0, 0, 1, 1, 1]);
}

#[test]
fn deadlines_missed_by_the_planner() {
    let file = file_of(&[[10, 1, 10, 6], [10, 1, 10, 6]], &[]);
    let mut words = [7; 6];
    assert_eq!(plan(&file, 1, &mut words), Err(Reply::MissedDeadline.at(1)));
    let file = file_of(&[[20, 1, 20, 10], [10, 1, 5, 1]], &[]);
    assert_eq!(plan(&file, 1, &mut words), Err(Reply::MissedDeadline.at(0)));
    assert_eq!(words, [7; 6]);
    assert_eq!(check(&file, 1, &[0, 1, 0, 0, 0, 11]), Ok(()));
}

#[test]
fn overlap_is_named_before_a_predecessor() {
    let file = file_of(
        &[[25, 1, 25, 10], [25, 1, 25, 5], [25, 1, 25, 5]],
        &[[0, 2]],
    );
    assert_eq!(
        check(&file, 2, &[0, 0, 1, 0, 1, 4]),
        Err(Reply::Overlap.at(2))
    );
}

#[test]
fn processors_then_file_then_memory_then_plan() {
    let mut words = [7; 8];
    for processors in [0, 5, u32::MAX] {
        assert_eq!(plan(&[], processors, &mut words), Err(Reply::Range.at(0)));
        assert_eq!(check(&[], processors, &[]), Err(Reply::Range.at(0)));
    }
    assert_eq!(plan(&[], 4, &mut []), Err(Reply::EndsEarly.at(0)));
    assert_eq!(check(&[], 4, &[]), Err(Reply::EndsEarly.at(0)));
    let short = Err(Reply::ShortBuffer.at(0));
    assert_eq!(plan(&K, 1, &mut words[..7]), short);
    assert_eq!(check(&K, 1, &[9; 7]), short);
    assert_eq!(check(&K, 1, &[9; 8]), Err(Reply::Processor.at(0)));
    assert_eq!(words, [7; 8]);
    let longer = [0, 0, 0, 3, 0, 7, 0, 13, 9, 9];
    assert_eq!(check(&K, 1, &longer), Ok(()));
}

#[test]
fn turn_runs_are_judged_in_order() {
    let mut input = [0; 9];
    let mut plan = K_PLAN;
    let asked = |plan: &[u32], input: &[u32], turns: &[u32]| {
        let request = Request {
            file: &K,
            processors: 2,
            frames: 1,
            plan,
            input,
            turns,
        };
        let mut output = [7; 8];
        let refusal = run_turns(&request, &mut output).map(|_| ());
        assert!(refusal.is_ok() || output == [7; 8]);
        refusal
    };
    input[8] = 9;
    assert_eq!(asked(&plan, &input, &[]), Ok(()));
    assert_eq!(asked(&plan, &input, &[1, 2]), Err(Reply::Turn.at(1)));
    input[5] = 1;
    assert_eq!(asked(&plan, &input, &[1, 2]), Err(Reply::Sample.at(2)));
    plan[6] = 2;
    assert_eq!(asked(&plan, &input, &[2]), Err(Reply::Processor.at(3)));
    assert_eq!(
        asked(&plan[..7], &input, &[2]),
        Err(Reply::ShortBuffer.at(0))
    );
    assert_eq!(
        asked(&plan, &input[..7], &[2]),
        Err(Reply::ShortBuffer.at(0))
    );
}

#[test]
fn timed_runs_are_judged_in_order() {
    let mut plan = K_PLAN;
    let mut times = [7; 8];
    let long = [4, 4, 6, 4];
    let refusal = run_timed(&K, 2, &plan, &long, &mut times);
    assert_eq!(refusal, Err(Reply::Duration.at(0)));
    plan[7] = 17;
    let refusal = run_timed(&K, 2, &plan, &long, &mut times);
    assert_eq!(refusal, Err(Reply::EndsLate.at(3)));
    for (plan, durations, words) in [(7, 4, 8), (8, 3, 8), (8, 4, 7)] {
        let refusal = run_timed(
            &K,
            2,
            &K_PLAN[..plan],
            &long[..durations],
            &mut times[..words],
        );
        assert_eq!(refusal, Err(Reply::ShortBuffer.at(0)));
    }
    assert_eq!(times, [7; 8]);
}
