//! The file that fields make, sound or not: their numbers one after another, nothing judged.

use crate::network::Network;
use crate::number::write_number;

/// The numbers of a network's fields. A count beyond its list is followed by the whole list.
pub fn numbers(network: &Network) -> Vec<u32> {
    let mut numbers = vec![1, network.process_count];
    for process in network.processes() {
        numbers.extend([
            process.period,
            process.burst,
            process.deadline,
            process.budget,
        ]);
    }
    numbers.push(network.pair_count);
    for pair in network.pairs() {
        numbers.extend([pair.higher, pair.lower]);
    }
    numbers.push(network.channel_count);
    for channel in network.channels() {
        numbers.extend([
            channel.kind,
            channel.writer,
            channel.reader,
            channel.capacity,
        ]);
    }
    for process in 0..network.processes().len() {
        numbers.push(network.action_counts[process]);
        numbers.extend(network.actions(process).iter().flatten());
    }
    numbers
}

/// The file of a network's fields.
pub fn of(network: &Network) -> Vec<u8> {
    numbers(network).into_iter().flat_map(encoded).collect()
}

/// The bytes of one number.
pub fn encoded(number: u32) -> Vec<u8> {
    let mut bytes = vec![0; 5];
    let length = write_number(number, &mut bytes, 0);
    bytes.truncate(length);
    bytes
}
