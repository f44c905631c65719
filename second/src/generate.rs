//! The generator of cases. A case is a network, a file, memory to lend, a run to ask for, and
//! plans; the seed and the case's number determine all of it.

pub mod bytes;
pub mod durations;
pub mod faults;
pub mod feasible;
pub mod fields;
pub mod file;
pub mod networks;
pub mod plans;
pub mod processes;
pub mod programs;
pub mod random;
pub mod runs;
pub mod turns;

use crate::frame;
use crate::listing;
use crate::network::Network;
use crate::read;
use durations::TimedRun;
use plans::{Given, Subject, Wanted};
use random::Random;
use runs::Run;
use turns::TurnRun;

/// What both implementations are given.
#[derive(Clone, Debug)]
pub struct Case {
    pub kind: String,
    /// The fields handed to the writer.
    pub network: Network,
    /// The file handed to the other calls that take no plan.
    pub file: Vec<u8>,
    /// The lengths of memory lent to the writer, one call each.
    pub rooms: [usize; 4],
    pub run: Run,
    /// The file handed to the calls about plans.
    pub subject: Subject,
    pub wanted: Wanted,
    /// Plans handed to the checker, one call each.
    pub given: [Given; 3],
    pub turn_run: TurnRun,
    pub timed_run: TimedRun,
    /// The lengths of memory lent to the lister, one call each.
    pub listing_rooms: [usize; 4],
}

/// The most bytes that are lent to the lister where there is no listing.
const LISTING: usize = 4000;

/// Case `number` of a seed.
pub fn case(seed: u64, number: u64) -> Case {
    let mut random = Random::of_case(seed, number);
    let chosen = random.below(100);
    let (mut kind, mut network) = if chosen < 30 {
        sound(&mut random)
    } else if chosen < 80 {
        unsound(&mut random)
    } else {
        described(networks::any(&mut random))
    };
    let mut file = file::of(&network);
    let rooms = rooms(file.len());
    if chosen >= 80 {
        kind = format!("{kind}, {}", bytes::damage(&mut random, &mut file));
    } else if random.chance(45) {
        if let Err(refusal) = read::read(&file) {
            let damage = bytes::damage_near(&mut random, &mut file, refusal.place);
            kind = format!("{kind}, {damage}");
        }
    }
    if random.chance(50) {
        fields::junk_past_counts(&mut random, &mut network);
    }
    let jobs = jobs_of(&file).unwrap_or(random.within(1, 130) as usize);
    let run = runs::any(&mut random, jobs);
    let subject = Subject::any(&mut random, &file);
    Case {
        kind,
        network,
        file,
        rooms,
        run,
        wanted: Wanted::any(&mut random, &subject),
        given: std::array::from_fn(|_| Given::any(&mut random, &subject)),
        turn_run: TurnRun::any(&mut random, &subject),
        timed_run: TimedRun::any(&mut random, &subject),
        listing_rooms: rooms_of_listing(&mut random, &subject.file),
        subject,
    }
}

/// Lengths of memory for so many bytes: just enough, one too few, one more, and none.
fn rooms(length: usize) -> [usize; 4] {
    [length, length.saturating_sub(1), length + 1, 0]
}

/// Lengths of memory for the listing of a file.
fn rooms_of_listing(random: &mut Random, file: &[u8]) -> [usize; 4] {
    match listing::listing(file) {
        Ok(text) => rooms(text.len()),
        Err(_) => rooms(random.below(LISTING)),
    }
}

/// The number of jobs of a file that can be read.
fn jobs_of(file: &[u8]) -> Option<usize> {
    let network = read::read(file).ok()?;
    frame::size(network.processes()).map(|size| size.jobs)
}

fn described((kind, network): (&'static str, Network)) -> (String, Network) {
    (kind.to_string(), network)
}

fn sound(random: &mut Random) -> (String, Network) {
    described(networks::any(random))
}

/// A sound network with one field or two made unsound or set at a limit.
fn unsound(random: &mut Random) -> (String, Network) {
    let (mut kind, mut network) = if random.chance(60) {
        described(("rich", networks::rich(random)))
    } else {
        sound(random)
    };
    let times = if random.chance(20) { 2 } else { 1 };
    for _ in 0..times {
        kind = format!("{kind}, {}", fields::change(random, &mut network));
    }
    (kind, network)
}

#[cfg(test)]
mod tests {
    use super::*;

    #[test]
    fn a_seed_determines_its_cases() {
        for number in 0..50 {
            let (one, other) = (case(7, number), case(7, number));
            assert_eq!(one.kind, other.kind);
            assert_eq!(one.network, other.network);
            assert_eq!(one.file, other.file);
            assert_eq!(one.run, other.run);
            assert_eq!(one.subject.file, other.subject.file);
            assert_eq!(one.wanted, other.wanted);
            assert_eq!(one.given, other.given);
            assert_eq!(one.turn_run, other.turn_run);
            assert_eq!(one.timed_run, other.timed_run);
            assert_eq!(one.listing_rooms, other.listing_rooms);
        }
        assert_ne!(case(7, 0).file, case(8, 0).file);
    }

    #[test]
    fn sound_networks_are_accepted() {
        for seed in 0..300 {
            let (kind, network) = networks::any(&mut Random::new(seed));
            assert_eq!(
                read::read(&file::of(&network)),
                Ok(network),
                "{kind}, seed {seed}"
            );
        }
    }
}
