//! The calls of a case, if they are small enough for a line and worth one.

use super::source::{assignments, bytes, call, declared, show, text};
use super::{lines, Vector};
use crate::generate::plans::Given;
use crate::generate::random::Random;
use crate::generate::{fields, Case};
use crate::machine::{Final, Held};
use crate::network::Network;
use crate::refusal::Refusal;
use crate::turns::Request;
use crate::{graph, listing, plan, read, timed, turns, write, zero_delay};

/// Makes a call of a case, under this label.
pub type Maker = fn(label: &str, case: &Case) -> Option<Vector>;

/// The most bytes of a file.
const FILE: usize = 60;
/// The most bytes of a file that is run: smaller programs do little.
const RUN: usize = 120;
/// What lent words hold before a call.
const WORD: u32 = 9;
/// What lent bytes hold before a call.
const BYTE: u8 = 0xEE;

/// What bytes for text hold before a call.
const DOT: u8 = b'.';

/// A file that is long enough to say something, and not longer than this.
fn within(file: &[u8], most: usize) -> Option<&[u8]> {
    Some(file).filter(|file| (12..=most).contains(&file.len()))
}

fn are_few(lists: &[&[u32]]) -> bool {
    lists.iter().all(|list| list.len() <= 24)
}

fn vector<T>(
    answer: &Result<T, Refusal>,
    statements: Vec<String>,
    label: String,
    line: &str,
) -> Vector {
    Vector {
        reply: answer
            .as_ref()
            .map_or_else(|refusal| refusal.reply as u32, |_| 0),
        statements,
        line: format!("{label}: {line}"),
    }
}

pub fn read(label: &str, case: &Case) -> Option<Vector> {
    let file = within(&case.file, FILE)?;
    let label = format!("{label} read");
    let answer = read::read(file);
    let made = show("files::read", &label, file, &[]);
    Some(vector(&answer, vec![made], label, &lines::read(&answer)))
}

/// An accepted file's network with one field changed, or with none and a byte too few lent.
pub fn write(label: &str, case: &Case) -> Option<Vector> {
    let file = within(&case.file, FILE)?;
    let network = read::read(file).ok()?;
    let label = format!("{label} written");
    let mut random = Random::new(file.len() as u64);
    let mut changed = network.clone();
    let mut out = vec![BYTE; file.len() - 1];
    if random.chance(80) {
        fields::change(&mut random, &mut changed);
        out = vec![BYTE; file.len() + 1];
    }
    let assigned = assignments(&network, &changed);
    if assigned.len() > 3 {
        return None;
    }
    let answer = write::write(&changed, &mut out);
    let mut made = vec![
        call("let loaded = reader::read", &[&bytes(file)]),
        "let mut net = loaded.network;".to_string(),
    ];
    made.extend(assigned);
    made.push(format!("let mut out = [0xEEu8; {}];", out.len()));
    made.push(call(
        "files::write_all",
        &[&text(&label), "net", "&mut out"],
    ));
    Some(vector(&answer, made, label, &lines::write(&answer, &out)))
}

pub fn graph(label: &str, case: &Case) -> Option<Vector> {
    let file = within(&case.subject.file, FILE)?;
    let label = format!("the graph of {label}");
    let answer = graph::graph(file);
    let worth = answer.as_ref().map_or(true, |graph| {
        let jobs = graph.frame.jobs().len();
        jobs <= 12 && graph.edges as usize >= jobs
    });
    let made = show("graphs::show", &label, file, &[]);
    worth.then(|| vector(&answer, vec![made], label, &lines::graph(&answer)))
}

/// The network of a file that a call has accepted.
fn accepted(file: &[u8]) -> Network {
    read::read(file).expect("the call is done")
}

/// Whether a run lost something or left a value other than 0 in a channel.
fn passes_values(left: &Final) -> bool {
    let is_used = |channel: &Held| channel.loss > 0 || channel.values != [0; 8];
    left.channels.iter().any(is_used)
}

/// Whether a sample of the output has a value other than 0.
fn outputs_values(output: &[u32]) -> bool {
    let mut samples = output.chunks_exact(2);
    samples.any(|sample| sample[0] == 1 && sample[1] > 0)
}

/// A declaration of lent words.
fn lent(name: &str, length: usize) -> String {
    format!("let mut {name} = [{WORD}u32; {length}];")
}

pub fn zero_delay(label: &str, case: &Case) -> Option<Vector> {
    let file = within(&case.file, RUN)?;
    let run = &case.run;
    let mut output = vec![WORD; run.output_length];
    if !are_few(&[&run.input, &output]) {
        return None;
    }
    let label = format!("{label} run");
    let made = vec![
        declared("input", &run.input),
        lent("output", output.len()),
        show(
            "ran::show",
            &label,
            file,
            &[&run.frames.to_string(), "&input", "&mut output"],
        ),
    ];
    let answer = zero_delay::zero_delay(file, run.frames, &run.input, &mut output);
    let left = answer.as_ref().ok();
    let worth = left.is_none_or(|left| passes_values(left) && outputs_values(&output));
    let left = left.map(|left| (accepted(file), left));
    let line = lines::answer(&answer) + &lines::output(&output) + &lines::left(left);
    worth.then(|| vector(&answer, made, label, &line))
}

/// The plan of a call, if it has few words.
fn few_places(given: &Given) -> Option<&Given> {
    Some(given).filter(|given| are_few(&[&given.plan]))
}

pub fn plan(label: &str, case: &Case) -> Option<Vector> {
    let file = within(&case.subject.file, FILE)?;
    let processors = case.wanted.processors;
    let mut out = vec![WORD; case.wanted.out_length];
    if !are_few(&[&out]) {
        return None;
    }
    let label = format!("{label} planned");
    let made = vec![
        lent("out", out.len()),
        show(
            "plans::show_plan",
            &label,
            file,
            &[&processors.to_string(), "&mut out"],
        ),
    ];
    let answer = plan::plan(file, processors, &mut out);
    let worth = answer.is_err() || out.len() > 6 && out.chunks(2).any(|place| place[0] == 1);
    let line = lines::answer(&answer) + &lines::output(&out);
    worth.then(|| vector(&answer, made, label, &line))
}

pub fn check(label: &str, case: &Case) -> Option<Vector> {
    let file = within(&case.subject.file, FILE)?;
    let given = few_places(&case.given[0])?;
    let label = format!("the plan of {label}");
    let made = vec![
        declared("plan", &given.plan),
        show(
            "plans::show_check",
            &label,
            file,
            &[&given.processors.to_string(), "&plan"],
        ),
    ];
    let answer = plan::check(file, given.processors, &given.plan);
    let worth = given.plan.len() > 4;
    worth.then(|| vector(&answer, made, label, &lines::answer(&answer)))
}

pub fn turns(label: &str, case: &Case) -> Option<Vector> {
    let file = within(&case.subject.file, RUN)?;
    let given = few_places(&case.turn_run.given)?;
    let (run, list) = (&case.turn_run.run, &case.turn_run.turns);
    let mut output = vec![WORD; run.output_length];
    if !are_few(&[&run.input, &output]) || list.len() > 28 {
        return None;
    }
    let label = format!("{label} by turns");
    let made = vec![
        declared("plan", &given.plan),
        declared("input", &run.input),
        declared("list", list),
        lent("output", output.len()),
        show(
            "turn_runs::show",
            &label,
            file,
            &[
                &given.processors.to_string(),
                &run.frames.to_string(),
                "&plan",
                "&input",
                "&list",
                "&mut output",
            ],
        ),
    ];
    let request = Request {
        file,
        processors: given.processors,
        frames: run.frames,
        plan: &given.plan,
        input: &run.input,
        turns: list,
    };
    let answer = turns::run_turns(&request, &mut output);
    let ran = answer.as_ref().ok();
    let worth = ran.is_none_or(|ran| given.processors > 1 && passes_values(&ran.left));
    let left = ran.map(|ran| (accepted(file), &ran.left));
    let line =
        lines::answer(&answer) + &lines::turned(ran) + &lines::output(&output) + &lines::left(left);
    worth.then(|| vector(&answer, made, label, &line))
}

pub fn timed(label: &str, case: &Case) -> Option<Vector> {
    let file = within(&case.subject.file, FILE)?;
    let given = few_places(&case.timed_run.given)?;
    let durations = &case.timed_run.durations;
    let mut out = vec![WORD; case.timed_run.out_length];
    if !are_few(&[durations, &out]) {
        return None;
    }
    let label = format!("{label} timed");
    let made = vec![
        declared("plan", &given.plan),
        declared("durations", durations),
        lent("out", out.len()),
        show(
            "times::show",
            &label,
            file,
            &[
                &given.processors.to_string(),
                "&plan",
                "&durations",
                "&mut out",
            ],
        ),
    ];
    let answer = timed::run_timed(file, given.processors, &given.plan, durations, &mut out);
    let worth = given.plan.len() > 4 && given.plan.chunks(2).any(|place| place[0] == 1);
    let line = lines::answer(&answer) + &lines::output(&out);
    worth.then(|| vector(&answer, made, label, &line))
}

pub fn list(label: &str, case: &Case) -> Option<Vector> {
    let file = within(&case.subject.file, FILE)?;
    let room = case.listing_rooms[file.len() % 4];
    let mut out = vec![DOT; room];
    if room > 150 {
        return None;
    }
    let label = format!("{label} listed");
    let made = vec![
        format!("let mut out = [{DOT}u8; {room}];"),
        show("listings::show", &label, file, &["&mut out"]),
    ];
    let answer = listing::list(file, &mut out);
    let line = lines::list(&answer, &out);
    let mut processors = line
        .lines()
        .skip(1)
        .filter_map(|line| line.split(' ').nth(5));
    let worth = answer.is_err() || processors.any(|processor| processor == "1");
    worth.then(|| vector(&answer, made, label, &line))
}
