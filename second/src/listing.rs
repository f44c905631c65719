//! The lister: the counts of a network, then its jobs with their places on two processors, as text.

use std::fmt::Write;

use crate::frame::Job;
use crate::graph::Graph;
use crate::plan::{planned, Task};
use crate::refusal::{Refusal, Reply};

/// The number of processors that the lister plans for.
const PROCESSORS: u32 = 2;

/// Writes the listing of a network file to the front of `out`, and tells its length.
pub fn list(file: &[u8], out: &mut [u8]) -> Result<usize, Refusal> {
    let text = listing(file)?;
    let Some(room) = out.get_mut(..text.len()) else {
        return Err(Reply::ShortBuffer.at(0));
    };
    room.copy_from_slice(text.as_bytes());
    Ok(text.len())
}

/// The listing of a network file that can be read and planned.
pub fn listing(file: &[u8]) -> Result<String, Refusal> {
    let task = Task::of(file, PROCESSORS)?;
    let plan = planned(&task, PROCESSORS)?;
    let Graph { frame, edges, .. } = Graph::of(&task.network);
    let jobs = frame.jobs();
    let mut text = format!("jobs {} frame {} edges {edges}\n", jobs.len(), frame.length);
    for (number, job) in jobs.iter().enumerate() {
        let Job {
            process,
            release,
            deadline,
            budget,
        } = job;
        let (processor, start) = (plan[2 * number], plan[2 * number + 1]);
        writeln!(
            text,
            "{number} {process} {release} {deadline} {budget} {processor} {start}"
        )
        .expect("a string takes any text");
    }
    Ok(text)
}
