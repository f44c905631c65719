//! Changes to the fields of a network: each field at and just past each of its limits, pairs,
//! channels and actions that are not sound, frames at and past their sizes, and arbitrary numbers.

use super::random::Random;
use super::{networks, processes, programs};
use crate::frame::JOBS;
use crate::network::{Channel, FourNumbers, Network, Pair, ACTIONS, CHANNELS, PAIRS, PROCESSES};
use crate::rules::{BOARD, VARIABLES};

type Change = fn(&mut Random, &mut Network);

/// All changes with their names; some stand here more than once to be met more often.
const CHANGES: [(&str, Change); 41] = [
    ("process count", process_count),
    ("period", period),
    ("burst", burst),
    ("deadline", deadline),
    ("budget", budget),
    ("pair count", pair_count),
    ("pair out of range", pair_out_of_range),
    ("pair out of range", pair_out_of_range),
    ("pair of one process", pair_of_one_process),
    ("pair repeated", pair_repeated),
    ("pair reversed", pair_reversed),
    ("pair reversed", pair_reversed),
    ("cycle", cycle),
    ("cycle", cycle),
    ("channel count", channel_count),
    ("kind", kind),
    ("capacity", capacity),
    ("board's capacity", boards_capacity),
    ("end out of range", end_out_of_range),
    ("ends equal", ends_equal),
    ("ends without pair", ends_without_pair),
    ("ends with a chain only", ends_with_a_chain_only),
    ("action count", action_count),
    ("unknown action", unknown_action),
    ("unknown action", unknown_action),
    ("operand", operand),
    ("operand", operand),
    ("operand", operand),
    ("operand", operand),
    ("operand", operand),
    ("other's channel", others_channel),
    ("other's channel", others_channel),
    ("operand not zero", operand_not_zero),
    ("operand not zero", operand_not_zero),
    ("skip", skip),
    ("skip", skip),
    ("skip as last", skip_as_last),
    ("frame too long", frame_too_long),
    ("too many jobs", too_many_jobs),
    ("arbitrary field", arbitrary_field),
    ("arbitrary fields", arbitrary_fields),
];

/// Makes one change and gives its name.
pub fn change(random: &mut Random, network: &mut Network) -> &'static str {
    let (name, change) = random.pick(&CHANGES);
    change(random, network);
    name
}

/// Sets every field past the counts to an arbitrary number.
pub fn junk_past_counts(random: &mut Random, network: &mut Network) {
    let kept = network.clone();
    arbitrary_fields(random, network);
    network.process_count = kept.process_count;
    network.pair_count = kept.pair_count;
    network.channel_count = kept.channel_count;
    let processes = kept.processes().len();
    network.processes[..processes].copy_from_slice(kept.processes());
    network.pairs[..kept.pairs().len()].copy_from_slice(kept.pairs());
    network.channels[..kept.channels().len()].copy_from_slice(kept.channels());
    network.action_counts[..processes].copy_from_slice(&kept.action_counts[..processes]);
    for process in 0..processes {
        let actions = kept.actions(process);
        network.actions[process][..actions.len()].copy_from_slice(actions);
    }
}

/// One of the numbers at and just past the limits `least` and `most`, or far past. Those that are
/// far past have low bits within the limits now and then.
fn about(random: &mut Random, least: u32, most: u32) -> u32 {
    let aliased = [1 << 8, 1 << 16, 1 << 31].map(|high| least.wrapping_add(high));
    match random.below(10) {
        0 | 1 if least > 0 => least - 1,
        0..=2 => least,
        3 | 4 => most,
        5..=7 => most.saturating_add(1),
        8 => random.pick(&aliased),
        _ => random.word(),
    }
}

/// The number of some process.
fn some_process(random: &mut Random, network: &Network) -> usize {
    random.below(network.processes().len().max(1))
}

fn process_count(random: &mut Random, network: &mut Network) {
    network.process_count = about(random, 1, PROCESSES as u32);
}

/// The deadline follows, mostly, so that the period alone decides.
fn period(random: &mut Random, network: &mut Network) {
    let number = some_process(random, network);
    let process = &mut network.processes[number];
    process.period = about(random, 1, 1000);
    if random.chance(70) {
        process.deadline = random.near_ends(1, process.period.max(1));
        process.budget = random.near_ends(1, process.deadline);
    }
}

fn burst(random: &mut Random, network: &mut Network) {
    let number = some_process(random, network);
    network.processes[number].burst = about(random, 1, 4);
}

/// The budget follows, mostly, so that the deadline alone decides.
fn deadline(random: &mut Random, network: &mut Network) {
    let number = some_process(random, network);
    let process = &mut network.processes[number];
    process.deadline = about(random, 1, process.period);
    if random.chance(70) {
        process.budget = random.near_ends(1, process.deadline.max(1));
    }
}

fn budget(random: &mut Random, network: &mut Network) {
    let number = some_process(random, network);
    let process = &mut network.processes[number];
    process.budget = about(random, 1, process.deadline);
}

fn pair_count(random: &mut Random, network: &mut Network) {
    network.pair_count = about(random, 0, PAIRS as u32);
}

/// Some pair of the network, to be changed.
fn some_pair<'a>(random: &mut Random, network: &'a mut Network) -> &'a mut Pair {
    let number = random.below(network.pairs().len().max(1));
    &mut network.pairs[number]
}

fn pair_out_of_range(random: &mut Random, network: &mut Network) {
    let member = about(random, 0, network.process_count.wrapping_sub(1));
    let pair = some_pair(random, network);
    if random.chance(50) {
        pair.higher = member;
    } else {
        pair.lower = member;
    }
}

fn pair_of_one_process(random: &mut Random, network: &mut Network) {
    let pair = some_pair(random, network);
    pair.lower = pair.higher;
}

/// Adds a pair at the end of the list, or puts it in the place of some pair when the list is full.
fn add_pair(random: &mut Random, network: &mut Network, pair: Pair) {
    let number = network.pairs().len();
    if number < PAIRS {
        network.pairs[number] = pair;
        network.pair_count += 1;
    } else {
        *some_pair(random, network) = pair;
    }
}

fn pair_repeated(random: &mut Random, network: &mut Network) {
    let pair = *some_pair(random, network);
    add_pair(random, network, pair);
}

fn pair_reversed(random: &mut Random, network: &mut Network) {
    let Pair { higher, lower } = *some_pair(random, network);
    let reversed = Pair {
        higher: lower,
        lower: higher,
    };
    add_pair(random, network, reversed);
}

/// A ring of some processes, which forms a cycle or repeats a pair.
fn cycle(random: &mut Random, network: &mut Network) {
    let mut ring: Vec<u32> = (0..network.processes().len() as u32).collect();
    random.shuffle(&mut ring);
    ring.truncate(random.within(2, 12) as usize);
    for (place, &higher) in ring.iter().enumerate() {
        let lower = ring[(place + 1) % ring.len()];
        let pair = Pair { higher, lower };
        if !network.pairs().contains(&pair) {
            add_pair(random, network, pair);
        }
    }
}

fn channel_count(random: &mut Random, network: &mut Network) {
    network.channel_count = about(random, 0, CHANNELS as u32);
}

/// Some channel of the network, to be changed.
fn some_channel<'a>(random: &mut Random, network: &'a mut Network) -> &'a mut Channel {
    let number = random.below(network.channels().len().max(1));
    &mut network.channels[number]
}

fn kind(random: &mut Random, network: &mut Network) {
    some_channel(random, network).kind = about(random, 0, 1);
}

/// Now and then the ends before it take more bytes than they may.
fn capacity(random: &mut Random, network: &mut Network) {
    let channel = some_channel(random, network);
    channel.capacity = about(random, 1, 8);
    if random.chance(30) {
        channel.writer = random.word();
    }
    if random.chance(30) {
        channel.reader = random.word();
    }
}

fn boards_capacity(random: &mut Random, network: &mut Network) {
    let channel = some_channel(random, network);
    channel.kind = BOARD;
    channel.capacity = about(random, 1, 1);
}

fn end_out_of_range(random: &mut Random, network: &mut Network) {
    let end = about(random, 0, network.process_count.wrapping_sub(1));
    let channel = some_channel(random, network);
    if random.chance(50) {
        channel.writer = end;
    } else {
        channel.reader = end;
    }
}

fn ends_equal(random: &mut Random, network: &mut Network) {
    let channel = some_channel(random, network);
    channel.reader = channel.writer;
}

/// Ends that may have a chain but no pair of their own.
fn ends_without_pair(random: &mut Random, network: &mut Network) {
    let writer = some_process(random, network) as u32;
    let reader = some_process(random, network) as u32;
    let channel = some_channel(random, network);
    channel.writer = writer;
    channel.reader = reader;
}

/// Ends with a process between them that has a pair with each, but without a pair of their own.
fn ends_with_a_chain_only(random: &mut Random, network: &mut Network) {
    let pairs = network.pairs();
    let joined = |one, other| {
        let has = |higher, lower| pairs.contains(&Pair { higher, lower });
        has(one, other) || has(other, one)
    };
    let mut ends = Vec::new();
    for above in pairs {
        for below in pairs.iter().filter(|below| below.higher == above.lower) {
            if !joined(above.higher, below.lower) {
                ends.push((above.higher, below.lower));
            }
        }
    }
    if !ends.is_empty() {
        let (writer, reader) = random.pick(&ends);
        let channel = some_channel(random, network);
        channel.writer = writer;
        channel.reader = reader;
    }
}

fn action_count(random: &mut Random, network: &mut Network) {
    let process = some_process(random, network);
    network.action_counts[process] = about(random, 0, ACTIONS as u32);
}

/// Process and index of some action.
fn some_action(random: &mut Random, network: &Network) -> (usize, usize) {
    let process = some_process(random, network);
    let index = random.below(network.actions(process).len().max(1));
    (process, index)
}

/// Puts a sound action with this head in the place of some action, if it can, and gives it.
fn sound_action<'a>(
    random: &mut Random,
    network: &'a mut Network,
    head: u32,
) -> &'a mut FourNumbers {
    let (process, index) = some_action(random, network);
    if let Some(action) = programs::of_head(random, network, process, index, head) {
        network.actions[process][index] = action;
    }
    &mut network.actions[process][index]
}

fn unknown_action(random: &mut Random, network: &mut Network) {
    let (sound, unknown) = (random.within(0, 7), about(random, 0, 7));
    sound_action(random, network, sound)[0] = unknown;
}

/// A variable or channel out of range, or just within.
fn operand(random: &mut Random, network: &mut Network) {
    const OPERANDS: [(u32, usize); 16] = [
        (0, 1),
        (1, 1),
        (1, 2),
        (1, 3),
        (2, 1),
        (2, 2),
        (2, 3),
        (3, 1),
        (3, 2),
        (3, 3),
        (4, 1),
        (4, 2),
        (5, 1),
        (5, 2),
        (6, 1),
        (7, 1),
    ];
    let (head, place) = random.pick(&OPERANDS);
    let operand = about(random, 0, VARIABLES - 1);
    sound_action(random, network, head)[place] = operand;
}

/// A read or write of any channel, of this process or another, or of one just past the last.
fn others_channel(random: &mut Random, network: &mut Network) {
    let (process, index) = some_action(random, network);
    let head = random.within(3, 4);
    let channel = match random.below(3) {
        0 => about(random, 0, network.channel_count.wrapping_sub(1)),
        _ => random.below(network.channels().len().max(1)) as u32,
    };
    let variables = [random.within(0, 7), random.within(0, 7)];
    let last = if head == 3 { variables[1] } else { 0 };
    network.actions[process][index] = [head, channel, variables[0], last];
}

fn operand_not_zero(random: &mut Random, network: &mut Network) {
    const ZEROS: [(u32, usize); 6] = [(0, 3), (4, 3), (5, 3), (6, 2), (6, 3), (7, 3)];
    let (head, place) = random.pick(&ZEROS);
    let number = about(random, 0, 0);
    sound_action(random, network, head)[place] = number;
}

/// A skip of none, up to the end, past the end, or so far that a sum would begin anew.
fn skip(random: &mut Random, network: &mut Network) {
    let (process, index) = some_action(random, network);
    let behind = network.actions(process).len().saturating_sub(index + 1) as u32;
    let wrapped = u32::MAX - random.within(0, index as u32 + 2);
    let limits = [0, 1, behind, behind + 1, wrapped, random.word()];
    let skipped = random.pick(&limits);
    network.actions[process][index] = [7, random.within(0, 7), skipped, 0];
}

fn skip_as_last(random: &mut Random, network: &mut Network) {
    let process = some_process(random, network);
    let last = network.actions(process).len().saturating_sub(1);
    network.actions[process][last] = [7, random.within(0, 7), random.within(0, 1), 0];
}

fn frame_too_long(random: &mut Random, network: &mut Network) {
    let processes = if random.chance(60) {
        processes::frame_past(random)
    } else {
        processes::frame_far_past(random)
    };
    *network = networks::of_processes(random, &processes);
}

fn too_many_jobs(random: &mut Random, network: &mut Network) {
    let jobs = random.pick(&[JOBS + 1, JOBS + 1, JOBS + 2, 200]);
    *network = networks::of_jobs(random, jobs);
}

/// References to all fields of a network.
fn all_fields(network: &mut Network) -> Vec<&mut u32> {
    let mut fields = vec![
        &mut network.process_count,
        &mut network.pair_count,
        &mut network.channel_count,
    ];
    for process in &mut network.processes {
        fields.extend([&mut process.period, &mut process.burst]);
        fields.extend([&mut process.deadline, &mut process.budget]);
    }
    for pair in &mut network.pairs {
        fields.extend([&mut pair.higher, &mut pair.lower]);
    }
    for channel in &mut network.channels {
        fields.extend([&mut channel.kind, &mut channel.writer]);
        fields.extend([&mut channel.reader, &mut channel.capacity]);
    }
    fields.extend(&mut network.action_counts);
    fields.extend(network.actions.iter_mut().flatten().flatten());
    fields
}

fn arbitrary_field(random: &mut Random, network: &mut Network) {
    let mut fields = all_fields(network);
    let index = random.below(fields.len());
    *fields[index] = random.word();
}

fn arbitrary_fields(random: &mut Random, network: &mut Network) {
    for field in all_fields(network) {
        *field = random.word();
    }
}
