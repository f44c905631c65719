//! The lines of the calls, as the program `vectors` of crates/ prints them.

use crate::graph::{marked, Graph};
use crate::machine::Final;
use crate::network::Network;
use crate::refusal::Refusal;
use crate::turns::TurnsRan;

/// What a call came to.
type Answer<T> = Result<T, Refusal>;

fn refused(refusal: &Refusal) -> String {
    format!("refused {} at {}", refusal.reply as u32, refusal.place)
}

/// Numbers, each after a space.
fn numbers(numbers: impl IntoIterator<Item = u32>) -> String {
    let each = numbers.into_iter().map(|number| format!(" {number}"));
    each.collect()
}

pub fn read(answer: &Answer<Network>) -> String {
    match answer {
        Ok(network) => format!(
            "processes {}, pairs {}, channels {}",
            network.process_count, network.pair_count, network.channel_count
        ),
        Err(refusal) => refused(refusal),
    }
}

pub fn write(answer: &Answer<usize>, out: &[u8]) -> String {
    let head = match answer {
        Ok(length) => format!("{length} bytes"),
        Err(refusal) => refused(refusal),
    };
    let bytes: String = out.iter().map(|byte| format!(" {byte:02x}")).collect();
    format!("{head},{bytes}")
}

/// The text with what stands behind it.
pub fn list(answer: &Answer<usize>, out: &[u8]) -> String {
    let head = match answer {
        Ok(length) => format!("{length} bytes"),
        Err(refusal) => refused(refusal),
    };
    format!("{head}, {}", String::from_utf8_lossy(out))
}

pub fn graph(answer: &Answer<Graph>) -> String {
    let graph = match answer {
        Ok(graph) => graph,
        Err(refusal) => return refused(refusal),
    };
    let jobs = graph.frame.jobs();
    let head = format!(
        "jobs {}, frame {}, edges {}",
        jobs.len(),
        graph.frame.length,
        graph.edges
    );
    let processes = numbers(jobs.iter().map(|job| job.process));
    let from = |(from, &row)| marked(row).map(move |to| format!(" {from}-{to}"));
    let edges: String = graph.rows.iter().enumerate().flat_map(from).collect();
    format!("{head}, processes{processes}, edges{edges}")
}

/// Reply and place.
pub fn answer<T>(answer: &Answer<T>) -> String {
    let (reply, place) = match answer {
        Ok(_) => (0, 0),
        Err(refusal) => (refusal.reply as u32, refusal.place),
    };
    format!("reply {reply} at {place}")
}

/// The words of lent memory.
pub fn output(words: &[u32]) -> String {
    format!(", output{}", numbers(words.iter().copied()))
}

/// The numbers that a turn run returns.
pub fn turned(ran: Option<&TurnsRan>) -> String {
    let count = |of: fn(&TurnsRan) -> usize| ran.map_or(0, of);
    format!(
        ", frames {}, jobs {}, working {}, waiting {}",
        count(|ran| ran.frames_finished as usize),
        count(|ran| ran.jobs_finished as usize),
        count(|ran| ran.working_turns),
        count(|ran| ran.waiting_turns)
    )
}

/// What a run of a network leaves.
pub fn left(left: Option<(Network, &Final)>) -> String {
    let Some((network, left)) = left else {
        return ", all else zero".to_string();
    };
    let held = left.channels.iter().enumerate().map(|(number, channel)| {
        let values = numbers(channel.values);
        let (held, loss) = (channel.held, channel.loss);
        format!(", channel {number} holds {held}:{values}, loss {loss}")
    });
    let variables = left.variables.iter().enumerate();
    let variables = variables.map(|(number, variables)| {
        let values = numbers(variables.words().iter().copied());
        format!(", variables {number}:{values}")
    });
    let held: String = held.take(network.channels().len()).collect();
    let variables: String = variables.take(network.processes().len()).collect();
    held + &variables
}
