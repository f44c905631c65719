//! What makes a field, pair, channel or action sound. The reader and the writer both ask here.

use std::ops::RangeInclusive;

use crate::network::{Channel, FourNumbers, Network, Pair, Process};
use crate::relation::Relation;

pub const PROCESS_COUNT: RangeInclusive<u32> = 1..=12;
pub const PERIOD: RangeInclusive<u32> = 1..=1000;
pub const BURST: RangeInclusive<u32> = 1..=4;
pub const PAIR_COUNT: RangeInclusive<u32> = 0..=66;
pub const CHANNEL_COUNT: RangeInclusive<u32> = 0..=16;
pub const KIND: RangeInclusive<u32> = 0..=1;
pub const ACTION_COUNT: RangeInclusive<u32> = 0..=24;
/// Frames that a run may be asked for.
pub const FRAMES: RangeInclusive<u32> = 1..=100;
/// Processors that a plan may have.
pub const PROCESSORS: RangeInclusive<u32> = 1..=4;
/// Variables of a process.
pub const VARIABLES: u32 = 8;
/// The kind of a board.
pub const BOARD: u32 = 1;

pub fn deadlines(process: &Process) -> RangeInclusive<u32> {
    1..=process.period
}

pub fn budgets(process: &Process) -> RangeInclusive<u32> {
    1..=process.deadline
}

pub fn capacities(kind: u32) -> RangeInclusive<u32> {
    match kind {
        BOARD => 1..=1,
        _ => 1..=8,
    }
}

/// Whether a pair joins two processes of the network and none of the pairs before it is the same.
pub fn pair_is_sound(pair: Pair, process_count: u32, before: &Relation) -> bool {
    pair.higher < process_count
        && pair.lower < process_count
        && pair.higher != pair.lower
        && !before.has(pair.higher as usize, pair.lower as usize)
}

/// Whether a channel joins two processes of the network that have a pair of their own.
pub fn ends_are_sound(channel: Channel, process_count: u32, relation: &Relation) -> bool {
    if channel.writer >= process_count || channel.reader >= process_count {
        return false;
    }
    let (writer, reader) = (channel.writer as usize, channel.reader as usize);
    writer != reader && (relation.has(writer, reader) || relation.has(reader, writer))
}

/// Whether action number `index` of `process` is sound.
#[inline]
pub fn action_is_sound(action: FourNumbers, network: &Network, process: usize, index: u32) -> bool {
    let variable = |number: u32| number < VARIABLES;
    let [head, first, second, third] = action;
    match head {
        0 => variable(first) && third == 0,
        1 | 2 => variable(first) && variable(second) && variable(third),
        3 => reads(network, first, process) && variable(second) && variable(third),
        4 => writes(network, first, process) && variable(second) && third == 0,
        5 => variable(first) && variable(second) && third == 0,
        6 => variable(first) && second == 0 && third == 0,
        7 => {
            let behind = network.action_counts[process] - index - 1;
            variable(first) && (1..=behind).contains(&second) && third == 0
        }
        _ => false,
    }
}

fn reads(network: &Network, channel: u32, process: usize) -> bool {
    let channel = network.channels().get(channel as usize);
    channel.is_some_and(|channel| channel.reader as usize == process)
}

fn writes(network: &Network, channel: u32, process: usize) -> bool {
    let channel = network.channels().get(channel as usize);
    channel.is_some_and(|channel| channel.writer as usize == process)
}
