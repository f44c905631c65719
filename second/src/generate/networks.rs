//! Sound networks of several sizes.

use super::processes;
use super::programs::{self, Style};
use super::random::Random;
use crate::frame::JOBS;
use crate::network::{Channel, Network, Pair, Process, ACTIONS, CHANNELS, PAIRS};
use crate::rules::BOARD;

/// Which pairs a network shall have, along a random order of its processes.
enum Pairs {
    /// So many of a hundred.
    Percent(usize),
    /// Those of neighbours, mostly, so that chains are long.
    Neighbours,
}

/// What a network shall have besides its processes.
struct Shape {
    pairs: Pairs,
    channels: usize,
    style: Style,
    least_actions: u32,
    most_actions: u32,
}

/// A sound network of any size, with the name of its kind.
pub fn any(random: &mut Random) -> (&'static str, Network) {
    match random.below(100) {
        0..=29 => ("small", small(random)),
        30..=42 => ("bursts", bursts(random)),
        43..=50 => ("numbers", numbers(random)),
        51..=62 => ("rich", rich(random)),
        63..=74 => ("chains", chains(random)),
        75..=84 => ("brim", brim(random)),
        85..=94 => {
            let style = Style::any(random);
            ("full", full(random, style))
        }
        _ => ("longest", longest(random)),
    }
}

/// A network of few processes, perhaps without pairs, channels or actions.
pub fn small(random: &mut Random) -> Network {
    let processes = processes::few(random, 5, 1..=2);
    let shape = Shape {
        pairs: Pairs::Percent(random.pick(&[0, 30, 60, 100])),
        channels: random.below(6),
        style: Style::any(random),
        least_actions: 0,
        most_actions: random.within(0, 10),
    };
    build(random, &processes, &shape)
}

/// A network whose processes release several jobs at a time.
pub fn bursts(random: &mut Random) -> Network {
    let processes = processes::few(random, 6, 2..=4);
    let shape = Shape {
        pairs: Pairs::Percent(random.pick(&[30, 60, 100])),
        channels: random.below(9),
        style: Style::Channels,
        least_actions: 0,
        most_actions: 8,
    };
    build(random, &processes, &shape)
}

/// A network with many numbers of five groups.
pub fn numbers(random: &mut Random) -> Network {
    let processes = processes::few(random, 4, 1..=2);
    let shape = Shape {
        pairs: Pairs::Percent(60),
        channels: random.below(4),
        style: Style::Numbers,
        least_actions: 0,
        most_actions: ACTIONS as u32,
    };
    build(random, &processes, &shape)
}

/// A network that has at least three processes, and some pairs, channels and actions.
pub fn rich(random: &mut Random) -> Network {
    let shape = Shape {
        pairs: Pairs::Percent(random.pick(&[40, 70])),
        channels: random.within(2, 8) as usize,
        style: Style::any(random),
        least_actions: 2,
        most_actions: 9,
    };
    loop {
        let processes = processes::few(random, 7, 1..=4);
        let network = build(random, &processes, &shape);
        if processes.len() >= 3 && network.pair_count >= 2 {
            return network;
        }
    }
}

/// A network of many processes with long chains of pairs.
pub fn chains(random: &mut Random) -> Network {
    let jobs = random.within(40, JOBS as u32) as usize;
    let processes = processes::with_jobs(random, jobs);
    let shape = Shape {
        pairs: Pairs::Neighbours,
        channels: random.below(CHANNELS + 1),
        style: Style::any(random),
        least_actions: 0,
        most_actions: 8,
    };
    build(random, &processes, &shape)
}

/// A network with as many jobs as may be, or one fewer.
pub fn brim(random: &mut Random) -> Network {
    let jobs = random.pick(&[JOBS, JOBS, JOBS - 1]);
    of_jobs(random, jobs)
}

/// A network with so many jobs; it is not sound if they are too many.
pub fn of_jobs(random: &mut Random, jobs: usize) -> Network {
    let processes = processes::with_jobs(random, jobs);
    of_processes(random, &processes)
}

/// A network of these processes; it is as sound as they are.
pub fn of_processes(random: &mut Random, processes: &[Process]) -> Network {
    let shape = Shape {
        pairs: Pairs::Percent(random.pick(&[0, 10, 20, 40, 80])),
        channels: random.below(CHANNELS + 1),
        style: Style::any(random),
        least_actions: 0,
        most_actions: 12,
    };
    build(random, processes, &shape)
}

/// A network with the most of everything.
pub fn full(random: &mut Random, style: Style) -> Network {
    let processes = processes::full(random);
    build(random, &processes, &full_shape(style))
}

/// A network whose file has 2,600 bytes.
pub fn longest(random: &mut Random) -> Network {
    let processes = processes::longest(random);
    build(random, &processes, &full_shape(Style::Numbers))
}

fn full_shape(style: Style) -> Shape {
    Shape {
        pairs: Pairs::Percent(100),
        channels: CHANNELS,
        style,
        least_actions: ACTIONS as u32,
        most_actions: ACTIONS as u32,
    }
}

fn build(random: &mut Random, processes: &[Process], shape: &Shape) -> Network {
    let mut network = Network::zero();
    network.process_count = processes.len() as u32;
    network.processes[..processes.len()].copy_from_slice(processes);
    add_pairs(random, &mut network, &shape.pairs);
    if network.pair_count > 0 {
        add_channels(random, &mut network, shape.channels);
    }
    for process in 0..processes.len() {
        let count = random.within(shape.least_actions, shape.most_actions) as usize;
        programs::fill(random, &mut network, process, shape.style, count);
    }
    network
}

/// Adds pairs that go one way along a random order of the processes.
fn add_pairs(random: &mut Random, network: &mut Network, wished: &Pairs) {
    let mut order: Vec<u32> = (0..network.process_count).collect();
    random.shuffle(&mut order);
    let mut pairs = Vec::with_capacity(PAIRS);
    for (place, &higher) in order.iter().enumerate() {
        for (distance, &lower) in order[place + 1..].iter().enumerate() {
            let percent = match wished {
                Pairs::Percent(percent) => *percent,
                Pairs::Neighbours if distance == 0 => 90,
                Pairs::Neighbours => 3,
            };
            if random.chance(percent) {
                pairs.push(Pair { higher, lower });
            }
        }
    }
    random.shuffle(&mut pairs);
    network.pair_count = pairs.len() as u32;
    network.pairs[..pairs.len()].copy_from_slice(&pairs);
}

/// Adds channels along pairs, in either direction.
fn add_channels(random: &mut Random, network: &mut Network, count: usize) {
    network.channel_count = count as u32;
    for number in 0..count {
        let pair = random.pick(network.pairs());
        let down = random.chance(70);
        let kind = u32::from(random.chance(30));
        network.channels[number] = Channel {
            kind,
            writer: if down { pair.higher } else { pair.lower },
            reader: if down { pair.lower } else { pair.higher },
            capacity: if kind == BOARD {
                1
            } else {
                random.near_ends(1, 8)
            },
        };
    }
}
