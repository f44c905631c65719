//! The writer of network files. It makes the file on a sheet of its own, judging each field as the
//! reader would, and copies it out only when all is sound and the lent memory has room.

use std::ops::RangeInclusive;

use crate::frame;
use crate::network::{Channel, Network, Process};
use crate::number::write_number;
use crate::refusal::{Refusal, Reply};
use crate::relation::Relation;
use crate::rules;

/// The longest accepted file has 2,600 bytes. Of an unsound record at most the first three numbers
/// are written, 15 bytes, before the call is refused.
const SHEET: usize = 2600 + 16;

/// Writes a network at the front of `out` and gives the length of the file.
pub fn write(network: &Network, out: &mut [u8]) -> Result<usize, Refusal> {
    let mut writer = Writer {
        sheet: [0; SHEET],
        place: 0,
    };
    writer.number(1);
    writer.processes(network)?;
    let relation = writer.pairs(network)?;
    writer.channels(network, &relation)?;
    for process in 0..network.processes().len() {
        writer.actions(network, process)?;
    }
    let length = writer.place;
    let Some(room) = out.get_mut(..length) else {
        return Err(Reply::ShortBuffer.at(0));
    };
    room.copy_from_slice(&writer.sheet[..length]);
    Ok(length)
}

/// The file made so far.
struct Writer {
    sheet: [u8; SHEET],
    place: usize,
}

impl Writer {
    #[inline]
    fn number(&mut self, value: u32) {
        self.place = write_number(value, &mut self.sheet, self.place);
    }

    fn number_in(&mut self, range: RangeInclusive<u32>, value: u32) -> Result<(), Refusal> {
        if !range.contains(&value) {
            return Err(Reply::Range.at(self.place));
        }
        self.number(value);
        Ok(())
    }

    fn processes(&mut self, network: &Network) -> Result<(), Refusal> {
        self.number_in(rules::PROCESS_COUNT, network.process_count)?;
        for process in network.processes() {
            self.process(process)?;
        }
        match frame::size(network.processes()) {
            Some(_) => Ok(()),
            None => Err(Reply::TooLarge.at(self.place)),
        }
    }

    fn process(&mut self, process: &Process) -> Result<(), Refusal> {
        self.number_in(rules::PERIOD, process.period)?;
        self.number_in(rules::BURST, process.burst)?;
        self.number_in(rules::deadlines(process), process.deadline)?;
        self.number_in(rules::budgets(process), process.budget)
    }

    fn pairs(&mut self, network: &Network) -> Result<Relation, Refusal> {
        self.number_in(rules::PAIR_COUNT, network.pair_count)?;
        let mut relation = Relation::default();
        for &pair in network.pairs() {
            if !rules::pair_is_sound(pair, network.process_count, &relation) {
                return Err(Reply::Pair.at(self.place));
            }
            relation.add(pair.higher as usize, pair.lower as usize);
            self.number(pair.higher);
            self.number(pair.lower);
        }
        if relation.chains().have_cycle() {
            return Err(Reply::Pair.at(self.place));
        }
        Ok(relation)
    }

    fn channels(&mut self, network: &Network, relation: &Relation) -> Result<(), Refusal> {
        self.number_in(rules::CHANNEL_COUNT, network.channel_count)?;
        for &channel in network.channels() {
            let place = self.place;
            self.channel(channel)?;
            if !rules::ends_are_sound(channel, network.process_count, relation) {
                return Err(Reply::Channel.at(place));
            }
        }
        Ok(())
    }

    /// The capacity is judged before the ends are, at the place where the ends leave it.
    fn channel(&mut self, channel: Channel) -> Result<(), Refusal> {
        self.number_in(rules::KIND, channel.kind)?;
        self.number(channel.writer);
        self.number(channel.reader);
        self.number_in(rules::capacities(channel.kind), channel.capacity)
    }

    fn actions(&mut self, network: &Network, process: usize) -> Result<(), Refusal> {
        self.number_in(rules::ACTION_COUNT, network.action_counts[process])?;
        for (index, &action) in network.actions(process).iter().enumerate() {
            if !rules::action_is_sound(action, network, process, index as u32) {
                return Err(Reply::Action.at(self.place));
            }
            for number in action {
                self.number(number);
            }
        }
        Ok(())
    }
}
