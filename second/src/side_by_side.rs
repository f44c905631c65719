//! Makes the calls of a case with both implementations. Memory is lent between guards and filled
//! with a pattern; answers and memory are compared afterwards.

use crate::as_library;
use crate::differences::{of_answers, of_memory, Answer};
use crate::generate::durations::TimedRun;
use crate::generate::plans::{Given, Wanted};
use crate::generate::runs::Run;
use crate::generate::turns::TurnRun;
use crate::generate::Case;
use crate::network::Network;

/// The calls that are compared.
#[derive(Clone, Copy, Debug, PartialEq, Eq)]
pub enum Call {
    Read,
    Write,
    Graph,
    ZeroDelay,
    Plan,
    Check,
    Turns,
    Timed,
    List,
}

impl Call {
    pub const ALL: &[Call] = &[
        Call::Read,
        Call::Write,
        Call::Graph,
        Call::ZeroDelay,
        Call::Plan,
        Call::Check,
        Call::Turns,
        Call::Timed,
        Call::List,
    ];

    pub fn name(self) -> &'static str {
        match self {
            Call::Read => "read",
            Call::Write => "write",
            Call::Graph => "graph",
            Call::ZeroDelay => "zero-delay",
            Call::Plan => "plan",
            Call::Check => "check",
            Call::Turns => "turns",
            Call::Timed => "timed",
            Call::List => "list",
        }
    }
}

/// What came of one call: this implementation's reply and lines that name what differs.
#[derive(Clone, Debug)]
pub struct Outcome {
    pub call: Call,
    pub reply: u32,
    pub different: Vec<String>,
}

/// Words before and behind lent memory that no call may touch.
const GUARD: usize = 16;

/// Memory with a pattern: a guard, `length` places to lend, and another guard.
fn patterned<T>(length: usize, pattern: fn(usize) -> T) -> Vec<T> {
    (0..GUARD + length + GUARD).map(pattern).collect()
}

/// The part that is lent.
fn lent<T>(memory: &mut [T]) -> &mut [T] {
    let end = memory.len() - GUARD;
    &mut memory[GUARD..end]
}

fn byte_pattern(place: usize) -> u8 {
    (place as u8).wrapping_mul(37) ^ 0xA5
}

fn word_pattern(place: usize) -> u32 {
    (place as u32).wrapping_mul(0x9E37_79B9) ^ 0xA5A5_A5A5
}

fn outcome<A: Answer>(call: Call, library: &A, second: &A, memory: Vec<String>) -> Outcome {
    let mut different = of_answers(library, second);
    different.extend(memory);
    Outcome {
        call,
        reply: second.reply(),
        different,
    }
}

/// Makes all calls of a case.
pub fn all_calls(case: &Case) -> Vec<Outcome> {
    let mut outcomes = vec![
        read(&case.file),
        graph(&case.file),
        zero_delay(&case.file, &case.run),
    ];
    let network = as_library::network(&case.network);
    let writes = case
        .rooms
        .iter()
        .map(|&room| write(&case.network, &network, room));
    outcomes.extend(writes);
    let file = &case.subject.file;
    outcomes.push(plan(file, &case.wanted));
    outcomes.extend(case.given.iter().map(|given| check(file, given)));
    outcomes.push(turns(file, &case.turn_run));
    outcomes.push(timed(file, &case.timed_run));
    outcomes.extend(case.listing_rooms.iter().map(|&room| list(file, room)));
    outcomes
}

fn read(file: &[u8]) -> Outcome {
    let lent_file = file.to_vec();
    let library = fppn::read(&lent_file);
    let second = as_library::read(file);
    let memory = of_memory("file", 0, &lent_file, file);
    outcome(Call::Read, &library, &second, memory)
}

fn graph(file: &[u8]) -> Outcome {
    let lent_file = file.to_vec();
    let library = fppn::graph(&lent_file);
    let second = as_library::graph(file);
    let memory = of_memory("file", 0, &lent_file, file);
    outcome(Call::Graph, &library, &second, memory)
}

fn zero_delay(file: &[u8], run: &Run) -> Outcome {
    let (lent_file, lent_input) = (file.to_vec(), run.input.clone());
    let mut library_output = patterned(run.output_length, word_pattern);
    let mut second_output = library_output.clone();
    let lent_output = lent(&mut library_output);
    let library = fppn::zero_delay(&lent_file, run.frames, &lent_input, lent_output);
    let lent_output = lent(&mut second_output);
    let second = as_library::zero_delay(file, run.frames, &run.input, lent_output);
    let mut memory = of_memory("output", GUARD, &library_output, &second_output);
    memory.extend(of_memory("file", 0, &lent_file, file));
    memory.extend(of_memory("input", 0, &lent_input, &run.input));
    outcome(Call::ZeroDelay, &library, &second, memory)
}

fn write(network: &Network, for_library: &fppn::Network, room: usize) -> Outcome {
    let mut library_out = patterned(room, byte_pattern);
    let mut second_out = library_out.clone();
    let library = fppn::write(for_library, lent(&mut library_out));
    let second = as_library::write(network, lent(&mut second_out));
    let memory = of_memory("out", GUARD, &library_out, &second_out);
    outcome(Call::Write, &library, &second, memory)
}

fn plan(file: &[u8], wanted: &Wanted) -> Outcome {
    let lent_file = file.to_vec();
    let mut library_out = patterned(wanted.out_length, word_pattern);
    let mut second_out = library_out.clone();
    let library = fppn::plan(&lent_file, wanted.processors, lent(&mut library_out));
    let second = as_library::plan(file, wanted.processors, lent(&mut second_out));
    let mut memory = of_memory("out", GUARD, &library_out, &second_out);
    memory.extend(of_memory("file", 0, &lent_file, file));
    outcome(Call::Plan, &library, &second, memory)
}

fn check(file: &[u8], given: &Given) -> Outcome {
    let (lent_file, lent_plan) = (file.to_vec(), given.plan.clone());
    let library = fppn::check(&lent_file, given.processors, &lent_plan);
    let second = as_library::check(file, given.processors, &given.plan);
    let mut memory = of_memory("plan", 0, &lent_plan, &given.plan);
    memory.extend(of_memory("file", 0, &lent_file, file));
    outcome(Call::Check, &library, &second, memory)
}

fn asked<'a>(file: &'a [u8], turn_run: &'a TurnRun) -> fppn::Turns<'a> {
    fppn::Turns {
        file,
        processors: turn_run.given.processors,
        frames: turn_run.run.frames,
        plan: &turn_run.given.plan,
        input: &turn_run.run.input,
        turns: &turn_run.turns,
    }
}

fn turns(file: &[u8], turn_run: &TurnRun) -> Outcome {
    let (lent_file, lent_run) = (file.to_vec(), turn_run.clone());
    let mut library_output = patterned(turn_run.run.output_length, word_pattern);
    let mut second_output = library_output.clone();
    let library = fppn::turns(&asked(&lent_file, &lent_run), lent(&mut library_output));
    let second = as_library::turns(&asked(file, turn_run), lent(&mut second_output));
    let mut memory = of_memory("output", GUARD, &library_output, &second_output);
    memory.extend(of_memory("file", 0, &lent_file, file));
    let (lent_plan, plan) = (&lent_run.given.plan, &turn_run.given.plan);
    memory.extend(of_memory("plan", 0, lent_plan, plan));
    let (lent_input, input) = (&lent_run.run.input, &turn_run.run.input);
    memory.extend(of_memory("input", 0, lent_input, input));
    memory.extend(of_memory("turns", 0, &lent_run.turns, &turn_run.turns));
    outcome(Call::Turns, &library, &second, memory)
}

fn timed(file: &[u8], timed_run: &TimedRun) -> Outcome {
    let (lent_file, lent_run) = (file.to_vec(), timed_run.clone());
    let mut library_out = patterned(timed_run.out_length, word_pattern);
    let mut second_out = library_out.clone();
    let library = fppn::timed(
        &lent_file,
        lent_run.given.processors,
        &lent_run.given.plan,
        &lent_run.durations,
        lent(&mut library_out),
    );
    let second = as_library::timed(
        file,
        timed_run.given.processors,
        &timed_run.given.plan,
        &timed_run.durations,
        lent(&mut second_out),
    );
    let mut memory = of_memory("out", GUARD, &library_out, &second_out);
    memory.extend(of_memory("file", 0, &lent_file, file));
    let (lent_plan, plan) = (&lent_run.given.plan, &timed_run.given.plan);
    memory.extend(of_memory("plan", 0, lent_plan, plan));
    let (lent_durations, durations) = (&lent_run.durations, &timed_run.durations);
    memory.extend(of_memory("durations", 0, lent_durations, durations));
    outcome(Call::Timed, &library, &second, memory)
}

fn list(file: &[u8], room: usize) -> Outcome {
    let lent_file = file.to_vec();
    let mut library_out = patterned(room, byte_pattern);
    let mut second_out = library_out.clone();
    let library = fppn::list(&lent_file, lent(&mut library_out));
    let second = as_library::list(file, lent(&mut second_out));
    let mut memory = of_memory("out", GUARD, &library_out, &second_out);
    memory.extend(of_memory("file", 0, &lent_file, file));
    outcome(Call::List, &library, &second, memory)
}
