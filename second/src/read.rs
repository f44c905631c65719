//! The reader of network files.

use std::ops::RangeInclusive;

use crate::frame;
use crate::network::{Channel, Network, Pair, Process};
use crate::number::read_number;
use crate::refusal::{Refusal, Reply};
use crate::relation::Relation;
use crate::rules;

/// Reads a network file; what it gives holds zero in all fields past the counts.
pub fn read(file: &[u8]) -> Result<Network, Refusal> {
    let mut reader = Reader { file, place: 0 };
    let mut network = Network::zero();
    if reader.number()? != 1 {
        return Err(Reply::Version.at(0));
    }
    reader.processes(&mut network)?;
    let relation = reader.pairs(&mut network)?;
    reader.channels(&mut network, &relation)?;
    for process in 0..network.process_count as usize {
        reader.actions(&mut network, process)?;
    }
    if reader.place < file.len() {
        return Err(Reply::LeftOver.at(reader.place));
    }
    Ok(network)
}

/// A file and the place reached in it.
struct Reader<'a> {
    file: &'a [u8],
    place: usize,
}

impl Reader<'_> {
    #[inline]
    fn number(&mut self) -> Result<u32, Refusal> {
        let (value, after) = read_number(self.file, self.place)?;
        self.place = after;
        Ok(value)
    }

    fn number_in(&mut self, range: RangeInclusive<u32>) -> Result<u32, Refusal> {
        let place = self.place;
        let value = self.number()?;
        if !range.contains(&value) {
            return Err(Reply::Range.at(place));
        }
        Ok(value)
    }

    fn processes(&mut self, network: &mut Network) -> Result<(), Refusal> {
        network.process_count = self.number_in(rules::PROCESS_COUNT)?;
        for process in &mut network.processes[..network.process_count as usize] {
            *process = self.process()?;
        }
        match frame::size(network.processes()) {
            Some(_) => Ok(()),
            None => Err(Reply::TooLarge.at(self.place)),
        }
    }

    fn process(&mut self) -> Result<Process, Refusal> {
        let mut process = Process {
            period: self.number_in(rules::PERIOD)?,
            burst: self.number_in(rules::BURST)?,
            ..Process::default()
        };
        process.deadline = self.number_in(rules::deadlines(&process))?;
        process.budget = self.number_in(rules::budgets(&process))?;
        Ok(process)
    }

    fn pairs(&mut self, network: &mut Network) -> Result<Relation, Refusal> {
        network.pair_count = self.number_in(rules::PAIR_COUNT)?;
        let mut relation = Relation::default();
        for slot in &mut network.pairs[..network.pair_count as usize] {
            let place = self.place;
            let pair = Pair {
                higher: self.number()?,
                lower: self.number()?,
            };
            if !rules::pair_is_sound(pair, network.process_count, &relation) {
                return Err(Reply::Pair.at(place));
            }
            relation.add(pair.higher as usize, pair.lower as usize);
            *slot = pair;
        }
        if relation.chains().have_cycle() {
            return Err(Reply::Pair.at(self.place));
        }
        Ok(relation)
    }

    fn channels(&mut self, network: &mut Network, relation: &Relation) -> Result<(), Refusal> {
        network.channel_count = self.number_in(rules::CHANNEL_COUNT)?;
        for slot in &mut network.channels[..network.channel_count as usize] {
            let place = self.place;
            let channel = self.channel()?;
            if !rules::ends_are_sound(channel, network.process_count, relation) {
                return Err(Reply::Channel.at(place));
            }
            *slot = channel;
        }
        Ok(())
    }

    fn channel(&mut self) -> Result<Channel, Refusal> {
        let kind = self.number_in(rules::KIND)?;
        Ok(Channel {
            kind,
            writer: self.number()?,
            reader: self.number()?,
            capacity: self.number_in(rules::capacities(kind))?,
        })
    }

    fn actions(&mut self, network: &mut Network, process: usize) -> Result<(), Refusal> {
        let count = self.number_in(rules::ACTION_COUNT)?;
        network.action_counts[process] = count;
        for index in 0..count {
            let place = self.place;
            let mut action = [0; 4];
            for number in &mut action {
                *number = self.number()?;
            }
            if !rules::action_is_sound(action, network, process, index) {
                return Err(Reply::Action.at(place));
            }
            network.actions[process][index as usize] = action;
        }
        Ok(())
    }
}
