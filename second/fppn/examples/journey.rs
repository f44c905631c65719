//! The whole journey of a network: it is read, planned for two processors, run one job after
//! another and run by turns, and both runs are compared.
//! `journey FILE FRAMES [FRAME.JOB=VALUE ..]`: these jobs get an input sample, all others get none.

use std::error::Error;
use std::process::ExitCode;

const PROCESSORS: u32 = 2;
/// The most turns that a job takes.
const TURNS_OF_A_JOB: usize = 25;

fn main() -> ExitCode {
    match asked() {
        Ok(true) => ExitCode::SUCCESS,
        Ok(false) => ExitCode::FAILURE,
        Err(why) => {
            eprintln!("{why}");
            ExitCode::FAILURE
        }
    }
}

fn asked() -> Result<bool, Box<dyn Error>> {
    let arguments: Vec<String> = std::env::args().skip(1).collect();
    let [name, frames, samples @ ..] = arguments.as_slice() else {
        return Err("usage: journey FILE FRAMES [FRAME.JOB=VALUE ..]".into());
    };
    let file = std::fs::read(name)?;
    Ok(journey(&file, frames.parse()?, samples)?)
}

/// Tells whether both runs came to the same.
fn journey(file: &[u8], frames: u32, samples: &[String]) -> Result<bool, String> {
    let loaded = fppn::read(file);
    need_done("read", loaded.reply, loaded.place)?;
    let network = &loaded.network;
    println!(
        "{} processes, {} pairs, {} channels",
        network.process_count, network.pair_count, network.channel_count
    );
    let graph = fppn::graph(file);
    need_done("graph", graph.reply, graph.place)?;
    println!(
        "{} jobs in a frame of {} ticks, {} edges",
        graph.jobs, graph.frame, graph.edges
    );
    let jobs = graph.jobs as usize;

    let mut plan = vec![0; 2 * jobs];
    let planned = fppn::plan(file, PROCESSORS, &mut plan);
    need_done("plan", planned.reply, planned.place)?;
    let checked = fppn::check(file, PROCESSORS, &plan);
    need_done("check", checked.reply, checked.place)?;
    println!("planned for {PROCESSORS} processors, and the plan is accepted");

    let input = given(samples, jobs, frames as usize)?;
    let mut output = vec![0; input.len()];
    let ran = fppn::zero_delay(file, frames, &input, &mut output);
    need_done("zero-delay run", ran.reply, ran.place)?;
    print_output(&graph, &output);

    let mut output_by_turns = vec![0; input.len()];
    let asked = fppn::Turns {
        file,
        processors: PROCESSORS,
        frames,
        plan: &plan,
        input: &input,
        turns: &rounds(jobs * frames as usize),
    };
    let turned = fppn::turns(&asked, &mut output_by_turns);
    need_done("turn run", turned.reply, turned.place)?;
    println!(
        "by turns: {} of {frames} frames finished, {} turns worked",
        turned.frames, turned.working
    );

    let same = [
        ("outputs", output == output_by_turns),
        ("variables", ran.variables == turned.variables),
        ("channels", ran.channels == turned.channels),
    ];
    for (what, same) in same {
        println!("{what}: {}", if same { "the same" } else { "DIFFERENT" });
    }
    let finished = turned.frames == frames as usize;
    Ok(finished && same.iter().all(|(_, same)| *same))
}

fn need_done(call: &str, reply: u32, place: usize) -> Result<(), String> {
    match reply {
        0 => Ok(()),
        _ => Err(format!("{call}: refused {reply} at {place}")),
    }
}

/// The input words, with each sample `FRAME.JOB=VALUE` where it belongs.
fn given(samples: &[String], jobs: usize, frames: usize) -> Result<Vec<u32>, String> {
    let mut input = vec![0; 2 * jobs * frames];
    for text in samples {
        match sample(text) {
            Some((frame, job, value)) if frame < frames && job < jobs => {
                let at = 2 * (frame * jobs + job);
                input[at..at + 2].copy_from_slice(&[1, value]);
            }
            _ => return Err(format!("not a sample: {text}")),
        }
    }
    Ok(input)
}

fn sample(text: &str) -> Option<(usize, usize, u32)> {
    let (place, value) = text.split_once('=')?;
    let (frame, job) = place.split_once('.')?;
    Some((frame.parse().ok()?, job.parse().ok()?, value.parse().ok()?))
}

/// Each processor in its turn, over and over. In each round at least one turn works, and a job
/// takes at most 25: so a run of so many jobs comes to its end.
fn rounds(jobs: usize) -> Vec<u32> {
    let rounds = TURNS_OF_A_JOB * jobs;
    (0..rounds).flat_map(|_| 0..PROCESSORS).collect()
}

fn print_output(graph: &fppn::GraphResult, output: &[u32]) {
    let jobs = graph.jobs as usize;
    for (index, sample) in output.chunks_exact(2).enumerate() {
        if let [1, value] = sample {
            let (frame, job) = (index / jobs, index % jobs);
            let process = graph.process[job];
            println!("frame {frame} job {job} process {process} outputs {value}");
        }
    }
}
