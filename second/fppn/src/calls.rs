//! The library's calls, each made safe: a slice is lent as its address and its length.

use crate::layout::{Answer, GraphResult, Listed, Loaded, Network, Ran, Turned, Written};

extern "C" {
    fn fppn_read(file: *const u8, file_length: usize) -> Loaded;
    fn fppn_write(network: Network, out: *mut u8, out_length: usize) -> Written;
    fn fppn_graph(file: *const u8, file_length: usize) -> GraphResult;
    fn fppn_zero_delay(
        file: *const u8,
        file_length: usize,
        frames: u32,
        input: *const u32,
        input_length: usize,
        output: *mut u32,
        output_length: usize,
    ) -> Ran;
    fn fppn_plan(
        file: *const u8,
        file_length: usize,
        processors: u32,
        out: *mut u32,
        out_length: usize,
    ) -> Answer;
    fn fppn_check(
        file: *const u8,
        file_length: usize,
        processors: u32,
        plan: *const u32,
        plan_length: usize,
    ) -> Answer;
    fn fppn_turns(
        file: *const u8,
        file_length: usize,
        processors: u32,
        frames: u32,
        plan: *const u32,
        plan_length: usize,
        input: *const u32,
        input_length: usize,
        turns: *const u32,
        turns_length: usize,
        output: *mut u32,
        output_length: usize,
    ) -> Turned;
    fn fppn_timed(
        file: *const u8,
        file_length: usize,
        processors: u32,
        plan: *const u32,
        plan_length: usize,
        durations: *const u32,
        durations_length: usize,
        out: *mut u32,
        out_length: usize,
    ) -> Answer;
    fn fppn_list(file: *const u8, file_length: usize, out: *mut u8, out_length: usize) -> Listed;
}

/// Reads a network file.
pub fn read(file: &[u8]) -> Loaded {
    // SAFETY: the address and length are those of a live slice, which the call only reads.
    unsafe { fppn_read(file.as_ptr(), file.len()) }
}

/// Writes a network into `out`.
pub fn write(network: &Network, out: &mut [u8]) -> Written {
    // SAFETY: the address and length are those of a live slice, lent to this call alone.
    unsafe { fppn_write(*network, out.as_mut_ptr(), out.len()) }
}

/// Gives the job sequence and the reduced precedence graph of a network file.
pub fn graph(file: &[u8]) -> GraphResult {
    // SAFETY: the address and length are those of a live slice, which the call only reads.
    unsafe { fppn_graph(file.as_ptr(), file.len()) }
}

/// Runs a network file with zero delay for `frames` frames.
pub fn zero_delay(file: &[u8], frames: u32, input: &[u32], output: &mut [u32]) -> Ran {
    // SAFETY: addresses and lengths are those of live slices; `output` is lent to this call alone,
    // and the others are only read.
    unsafe {
        fppn_zero_delay(
            file.as_ptr(),
            file.len(),
            frames,
            input.as_ptr(),
            input.len(),
            output.as_mut_ptr(),
            output.len(),
        )
    }
}

/// Plans a network file for `processors` processors: two words a job, processor and start.
pub fn plan(file: &[u8], processors: u32, out: &mut [u32]) -> Answer {
    // SAFETY: addresses and lengths are those of live slices; `out` is lent to this call alone,
    // and the file is only read.
    unsafe {
        fppn_plan(
            file.as_ptr(),
            file.len(),
            processors,
            out.as_mut_ptr(),
            out.len(),
        )
    }
}

/// Checks a plan of a network file, whoever made it.
pub fn check(file: &[u8], processors: u32, plan: &[u32]) -> Answer {
    // SAFETY: addresses and lengths are those of live slices, which the call only reads.
    unsafe {
        fppn_check(
            file.as_ptr(),
            file.len(),
            processors,
            plan.as_ptr(),
            plan.len(),
        )
    }
}

/// What a turn run is asked to do.
#[derive(Clone, Copy, Debug)]
pub struct Turns<'a> {
    pub file: &'a [u8],
    pub processors: u32,
    pub frames: u32,
    pub plan: &'a [u32],
    pub input: &'a [u32],
    pub turns: &'a [u32],
}

/// Runs a network file on a plan, turn by turn.
pub fn turns(asked: &Turns, output: &mut [u32]) -> Turned {
    // SAFETY: addresses and lengths are those of live slices; `output` is lent to this call alone,
    // and the others are only read.
    unsafe {
        fppn_turns(
            asked.file.as_ptr(),
            asked.file.len(),
            asked.processors,
            asked.frames,
            asked.plan.as_ptr(),
            asked.plan.len(),
            asked.input.as_ptr(),
            asked.input.len(),
            asked.turns.as_ptr(),
            asked.turns.len(),
            output.as_mut_ptr(),
            output.len(),
        )
    }
}

/// Gives the starts and ends of a plan's jobs, two words a job, when each takes its duration.
pub fn timed(
    file: &[u8],
    processors: u32,
    plan: &[u32],
    durations: &[u32],
    out: &mut [u32],
) -> Answer {
    // SAFETY: addresses and lengths are those of live slices; `out` is lent to this call alone,
    // and the others are only read.
    unsafe {
        fppn_timed(
            file.as_ptr(),
            file.len(),
            processors,
            plan.as_ptr(),
            plan.len(),
            durations.as_ptr(),
            durations.len(),
            out.as_mut_ptr(),
            out.len(),
        )
    }
}

/// Lists a network file with its plan for two processors, as text into `out`.
pub fn list(file: &[u8], out: &mut [u8]) -> Listed {
    // SAFETY: addresses and lengths are those of live slices; `out` is lent to this call alone,
    // and the file is only read.
    unsafe { fppn_list(file.as_ptr(), file.len(), out.as_mut_ptr(), out.len()) }
}
