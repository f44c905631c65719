//! The actions of processes.

use super::random::Random;
use crate::network::{FourNumbers, Network, ACTIONS};

/// What most actions of a program are.
#[derive(Clone, Copy, Debug, PartialEq, Eq)]
pub enum Style {
    Mixed,
    Channels,
    Arithmetic,
    /// Only actions 0 whose numbers have five groups.
    Numbers,
}

impl Style {
    /// How often each action is tried, by its head.
    fn weights(self) -> [usize; 8] {
        match self {
            Style::Mixed => [2, 2, 2, 3, 3, 2, 2, 2],
            Style::Channels => [1, 1, 0, 6, 6, 1, 1, 1],
            Style::Arithmetic => [2, 6, 6, 1, 1, 1, 1, 1],
            Style::Numbers => [1, 0, 0, 0, 0, 0, 0, 0],
        }
    }

    pub fn any(random: &mut Random) -> Self {
        random.pick(&[
            Style::Mixed,
            Style::Mixed,
            Style::Channels,
            Style::Channels,
            Style::Arithmetic,
        ])
    }
}

/// Gives a process `count` sound actions.
pub fn fill(
    random: &mut Random,
    network: &mut Network,
    process: usize,
    style: Style,
    count: usize,
) {
    assert!(count <= ACTIONS);
    let ends = Ends::of(network, process);
    network.action_counts[process] = count as u32;
    for index in 0..count {
        network.actions[process][index] = action(random, style, &ends, count - index - 1);
    }
}

/// The channels that a process reads, and those that it writes.
struct Ends {
    read: Vec<u32>,
    written: Vec<u32>,
}

impl Ends {
    fn of(network: &Network, process: usize) -> Self {
        let process = process as u32;
        let numbered = || (0..).zip(network.channels());
        let read = numbered().filter(|(_, channel)| channel.reader == process);
        let written = numbered().filter(|(_, channel)| channel.writer == process);
        Ends {
            read: read.map(|(number, _)| number).collect(),
            written: written.map(|(number, _)| number).collect(),
        }
    }
}

/// Whether a process with these ends can have an action with this head before so many others.
fn is_possible(head: u32, ends: &Ends, behind: usize) -> bool {
    match head {
        3 => !ends.read.is_empty(),
        4 => !ends.written.is_empty(),
        7 => behind > 0,
        _ => true,
    }
}

/// The head of an action that is possible here.
fn head(random: &mut Random, style: Style, ends: &Ends, behind: usize) -> u32 {
    let weights = style.weights();
    loop {
        let mut left = random.below(weights.iter().sum());
        let mut head = 0;
        while left >= weights[head] {
            left -= weights[head];
            head += 1;
        }
        if is_possible(head as u32, ends, behind) {
            return head as u32;
        }
    }
}

fn action(random: &mut Random, style: Style, ends: &Ends, behind: usize) -> FourNumbers {
    let head = head(random, style, ends, behind);
    let number = if style == Style::Numbers {
        random.five_groups()
    } else {
        random.word()
    };
    with_operands(random, head, number, ends, behind)
}

/// A possible action with this head; an action 0 has this number.
fn with_operands(
    random: &mut Random,
    head: u32,
    number: u32,
    ends: &Ends,
    behind: usize,
) -> FourNumbers {
    let mut variable = || random.within(0, 7);
    let (one, two, three) = (variable(), variable(), variable());
    match head {
        0 => [0, one, number, 0],
        3 => [3, random.pick(&ends.read), two, three],
        4 => [4, random.pick(&ends.written), two, 0],
        5 => [5, one, two, 0],
        6 => [6, one, 0, 0],
        7 => [7, one, random.near_ends(1, behind as u32), 0],
        _ => [head, one, two, three],
    }
}

/// A sound action with this head for a place among the actions of a process, if there is one.
pub fn of_head(
    random: &mut Random,
    network: &Network,
    process: usize,
    index: usize,
    head: u32,
) -> Option<FourNumbers> {
    let ends = Ends::of(network, process);
    let behind = network.actions(process).len().saturating_sub(index + 1);
    let number = random.word();
    is_possible(head, &ends, behind).then(|| with_operands(random, head, number, &ends, behind))
}
