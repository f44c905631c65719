//! This implementation's answers in the structs of the library, so that both can be compared.

use crate::graph::Graph;
use crate::machine::{Final, Held};
use crate::network::{Channel, Network, Pair, Process};
use crate::refusal::Refusal;
use crate::turns::{Request, TurnsRan};
use crate::{graph, listing, plan, read, timed, turns, write, zero_delay};

fn process(process: Process) -> fppn::Process {
    let Process {
        period,
        burst,
        deadline,
        budget,
    } = process;
    fppn::Process {
        period,
        burst,
        deadline,
        budget,
    }
}

fn pair(pair: Pair) -> fppn::Pair {
    let Pair { higher, lower } = pair;
    fppn::Pair { higher, lower }
}

fn channel(channel: Channel) -> fppn::Channel {
    let Channel {
        kind,
        writer,
        reader,
        capacity,
    } = channel;
    fppn::Channel {
        kind,
        writer,
        reader,
        capacity,
    }
}

fn held(held: Held) -> fppn::Held {
    let Held { held, values, loss } = held;
    fppn::Held { held, values, loss }
}

/// A network with the same fields.
pub fn network(network: &Network) -> fppn::Network {
    let mut actions = [0; fppn::ACTION_WORDS];
    let numbers = network.actions.iter().flatten().flatten();
    for (word, &number) in actions.iter_mut().zip(numbers) {
        *word = number;
    }
    fppn::Network {
        process_count: network.process_count,
        processes: network.processes.map(process),
        pair_count: network.pair_count,
        pairs: network.pairs.map(pair),
        channel_count: network.channel_count,
        channels: network.channels.map(channel),
        action_counts: network.action_counts,
        actions,
    }
}

/// Reply and place of an answer; both are 0 when the call is done.
fn reply_and_place<T>(answer: &Result<T, Refusal>) -> (u32, usize) {
    match answer {
        Ok(_) => (0, 0),
        Err(refusal) => (refusal.reply as u32, refusal.place),
    }
}

/// Reads a network file.
pub fn read(file: &[u8]) -> fppn::Loaded {
    let answer = read::read(file);
    let (reply, place) = reply_and_place(&answer);
    let network = network(&answer.unwrap_or_else(|_| Network::zero()));
    fppn::Loaded {
        reply,
        place,
        network,
    }
}

/// Writes a network into `out`.
pub fn write(network: &Network, out: &mut [u8]) -> fppn::Written {
    let answer = write::write(network, out);
    let (reply, place) = reply_and_place(&answer);
    fppn::Written {
        reply,
        place,
        length: answer.unwrap_or(0),
    }
}

/// Gives the job sequence and the reduced precedence graph of a network file.
pub fn graph(file: &[u8]) -> fppn::GraphResult {
    let answer = graph::graph(file);
    let (reply, place) = reply_and_place(&answer);
    let mut result = fppn::GraphResult {
        reply,
        place,
        jobs: 0,
        frame: 0,
        edges: 0,
        process: [0; fppn::JOBS],
        release: [0; fppn::JOBS],
        deadline: [0; fppn::JOBS],
        budget: [0; fppn::JOBS],
        rows: [0; 2 * fppn::JOBS],
    };
    if let Ok(graph) = answer {
        fill_graph(&graph, &mut result);
    }
    result
}

fn fill_graph(graph: &Graph, result: &mut fppn::GraphResult) {
    result.jobs = graph.frame.jobs().len() as u32;
    result.frame = graph.frame.length;
    result.edges = graph.edges;
    for (number, job) in graph.frame.jobs().iter().enumerate() {
        result.process[number] = job.process;
        result.release[number] = job.release;
        result.deadline[number] = job.deadline;
        result.budget[number] = job.budget;
    }
    for (words, row) in result.rows.chunks_exact_mut(2).zip(graph.rows) {
        words.copy_from_slice(&[row as u64, (row >> 64) as u64]);
    }
}

/// Runs a network file with zero delay.
pub fn zero_delay(file: &[u8], frames: u32, input: &[u32], output: &mut [u32]) -> fppn::Ran {
    let answer = zero_delay::zero_delay(file, frames, input, output);
    let (reply, place) = reply_and_place(&answer);
    let (variables, channels) = left(answer.as_ref().ok());
    fppn::Ran {
        reply,
        place,
        variables,
        channels,
    }
}

/// The words of variables and channels at the end of a run, all zero if there was none.
fn left(left: Option<&Final>) -> ([u32; fppn::VARIABLE_WORDS], [fppn::Held; fppn::CHANNELS]) {
    let mut words = [0; fppn::VARIABLE_WORDS];
    let mut channels = [held(Held::default()); fppn::CHANNELS];
    if let Some(left) = left {
        for (words, variables) in words.chunks_exact_mut(8).zip(&left.variables) {
            words.copy_from_slice(variables.words());
        }
        channels = left.channels.map(held);
    }
    (words, channels)
}

/// An answer that has nothing beside reply and place.
fn bare(answer: Result<(), Refusal>) -> fppn::Answer {
    let (reply, place) = reply_and_place(&answer);
    fppn::Answer { reply, place }
}

/// Plans a network file into `out`.
pub fn plan(file: &[u8], processors: u32, out: &mut [u32]) -> fppn::Answer {
    bare(plan::plan(file, processors, out))
}

/// Checks a plan of a network file.
pub fn check(file: &[u8], processors: u32, plan: &[u32]) -> fppn::Answer {
    bare(plan::check(file, processors, plan))
}

/// A turn run asked of this implementation.
pub fn request<'a>(asked: &fppn::Turns<'a>) -> Request<'a> {
    let fppn::Turns {
        file,
        processors,
        frames,
        plan,
        input,
        turns,
    } = *asked;
    Request {
        file,
        processors,
        frames,
        plan,
        input,
        turns,
    }
}

/// Runs a network file in turns.
pub fn turns(asked: &fppn::Turns, output: &mut [u32]) -> fppn::Turned {
    let answer = turns::run_turns(&request(asked), output);
    let (reply, place) = reply_and_place(&answer);
    let ran = answer.ok();
    let (variables, channels) = left(ran.as_ref().map(|ran| &ran.left));
    let count = |of: fn(&TurnsRan) -> usize| ran.as_ref().map_or(0, of);
    fppn::Turned {
        reply,
        place,
        frames: count(|ran| ran.frames_finished as usize),
        jobs: count(|ran| ran.jobs_finished as usize),
        working: count(|ran| ran.working_turns),
        waiting: count(|ran| ran.waiting_turns),
        variables,
        channels,
    }
}

/// Gives the starts and ends of a plan's jobs with these durations.
pub fn timed(
    file: &[u8],
    processors: u32,
    plan: &[u32],
    durations: &[u32],
    out: &mut [u32],
) -> fppn::Answer {
    bare(timed::run_timed(file, processors, plan, durations, out))
}

/// Lists a network file into `out`.
pub fn list(file: &[u8], out: &mut [u8]) -> fppn::Listed {
    let answer = listing::list(file, out);
    let (reply, place) = reply_and_place(&answer);
    fppn::Listed {
        reply,
        place,
        length: answer.unwrap_or(0),
    }
}
