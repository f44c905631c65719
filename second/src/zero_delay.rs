//! The zero-delay run: the jobs of each frame one after another in their sequence.

use crate::frame::{Frame, Job};
use crate::machine::{Final, Machine, Program};
use crate::network::PROCESSES;
use crate::read::read;
use crate::refusal::{Refusal, Reply};
use crate::relation::Relation;
use crate::rules;
use crate::samples::{self, Sample};

/// Runs a network file for `frames` frames, with samples from `input` and into `output`.
pub fn zero_delay(
    file: &[u8],
    frames: u32,
    input: &[u32],
    output: &mut [u32],
) -> Result<Final, Refusal> {
    if !rules::FRAMES.contains(&frames) {
        return Err(Reply::Range.at(0));
    }
    let network = read(file)?;
    let frame = Frame::of(&network, &Relation::of(&network));
    let of_frame = 2 * frame.jobs().len();
    let words = of_frame * frames as usize;
    let (Some(input), Some(output)) = (input.get(..words), output.get_mut(..words)) else {
        return Err(Reply::ShortBuffer.at(0));
    };
    samples::check(input)?;
    let programs: [Program; PROCESSES] =
        std::array::from_fn(|process| Program::of(&network, process));
    let mut machine = Machine::of(&network);
    let inputs = input.chunks_exact(of_frame);
    for (input, output) in inputs.zip(output.chunks_exact_mut(of_frame)) {
        run_frame(&mut machine, &programs, frame.jobs(), input, output);
    }
    Ok(machine.finish())
}

/// Runs one frame on its own part of the samples.
fn run_frame(
    machine: &mut Machine,
    programs: &[Program; PROCESSES],
    jobs: &[Job],
    input: &[u32],
    output: &mut [u32],
) {
    let samples = input.chunks_exact(2).zip(output.chunks_exact_mut(2));
    for (job, (input, output)) in jobs.iter().zip(samples) {
        let process = job.process as usize;
        let sample = machine.job(process, &programs[process], Sample::of(input));
        sample.store(output);
    }
}
