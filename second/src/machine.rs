//! What actions do to the variables of processes and to channels.

use crate::network::{self, FourNumbers, Network, ACTIONS, CHANNELS, PROCESSES};
use crate::rules::{BOARD, VARIABLES};
use crate::samples::Sample;

/// Places for the values of a channel.
const PLACES: usize = 8;

/// An action with its operands; variables and channels are named by their numbers.
#[derive(Clone, Copy, Debug, PartialEq, Eq)]
pub enum Action {
    Number { to: u8, number: u32 },
    Add { to: u8, left: u8, right: u8 },
    Subtract { to: u8, left: u8, right: u8 },
    Read { channel: u8, value: u8, flag: u8 },
    Write { channel: u8, from: u8 },
    Input { value: u8, flag: u8 },
    Output { from: u8 },
    Skip { unless: u8, count: u8 },
}

impl Action {
    /// The action that four sound numbers make.
    pub fn of(numbers: FourNumbers) -> Self {
        let [head, number, ..] = [numbers[0], numbers[2]];
        let [first, second, third] = [numbers[1] as u8, numbers[2] as u8, numbers[3] as u8];
        match head {
            0 => Action::Number { to: first, number },
            1 => Action::Add {
                to: first,
                left: second,
                right: third,
            },
            2 => Action::Subtract {
                to: first,
                left: second,
                right: third,
            },
            3 => Action::Read {
                channel: first,
                value: second,
                flag: third,
            },
            4 => Action::Write {
                channel: first,
                from: second,
            },
            5 => Action::Input {
                value: first,
                flag: second,
            },
            6 => Action::Output { from: first },
            _ => Action::Skip {
                unless: first,
                count: second,
            },
        }
    }
}

/// The actions of one process, decoded.
#[derive(Clone, Copy, Debug)]
pub struct Program {
    actions: [Action; ACTIONS],
    count: usize,
}

impl Program {
    pub fn of(network: &Network, process: usize) -> Self {
        let mut program = Program {
            actions: [Action::Output { from: 0 }; ACTIONS],
            count: network.actions(process).len(),
        };
        for (action, &numbers) in program.actions.iter_mut().zip(network.actions(process)) {
            *action = Action::of(numbers);
        }
        program
    }

    pub fn actions(&self) -> &[Action] {
        &self.actions[..self.count]
    }
}

/// The eight variables of a process.
#[derive(Clone, Copy, Debug, Default, PartialEq, Eq)]
pub struct Variables([u32; VARIABLES as usize]);

impl Variables {
    fn get(&self, variable: u8) -> u32 {
        self.0[usize::from(variable) % self.0.len()]
    }

    fn set(&mut self, variable: u8, value: u32) {
        self.0[usize::from(variable) % self.0.len()] = value;
    }

    pub fn words(&self) -> &[u32] {
        &self.0
    }
}

/// A queue or a board during a run; the values stand in a ring.
#[derive(Clone, Copy, Debug, Default)]
pub struct Channel {
    board: bool,
    capacity: u32,
    head: usize,
    length: u32,
    loss: u32,
    values: [u32; PLACES],
}

/// What a channel holds: the number held, its values oldest first and zeros after, its loss count.
#[derive(Clone, Copy, Debug, Default, PartialEq, Eq)]
pub struct Held {
    pub held: u32,
    pub values: [u32; PLACES],
    pub loss: u32,
}

impl Channel {
    fn of(channel: &network::Channel) -> Self {
        Channel {
            board: channel.kind == BOARD,
            capacity: channel.capacity,
            ..Channel::default()
        }
    }

    /// Value and flag; both are 0 when nothing is there.
    #[inline]
    fn read(&mut self) -> (u32, u32) {
        if self.length == 0 {
            return (0, 0);
        }
        let value = self.values[self.head % PLACES];
        if !self.board {
            self.head = (self.head + 1) % PLACES;
            self.length -= 1;
        }
        (value, 1)
    }

    #[inline]
    fn write(&mut self, value: u32) {
        if self.board {
            self.values[0] = value;
            self.length = 1;
        } else if self.length < self.capacity {
            self.values[(self.head + self.length as usize) % PLACES] = value;
            self.length += 1;
        } else {
            self.loss += 1;
        }
    }

    fn held(&self) -> Held {
        let mut held = Held {
            held: self.length,
            loss: self.loss,
            ..Held::default()
        };
        for (index, value) in held.values[..self.length as usize].iter_mut().enumerate() {
            *value = self.values[(self.head + index) % PLACES];
        }
        held
    }
}

/// Variables and channels during a run.
#[derive(Clone, Debug)]
pub struct Machine {
    variables: [Variables; PROCESSES],
    channels: [Channel; CHANNELS],
}

/// Variables and channels at the end of a run.
#[derive(Clone, Debug, PartialEq, Eq)]
pub struct Final {
    pub variables: [Variables; PROCESSES],
    pub channels: [Held; CHANNELS],
}

/// The parts of a machine that one job acts on.
struct Act<'a> {
    variables: &'a mut Variables,
    channels: &'a mut [Channel; CHANNELS],
}

impl Act<'_> {
    /// Does one action and gives by how many actions the job moves on.
    #[inline]
    fn step(&mut self, action: Action, input: Sample, output: &mut Sample) -> usize {
        let variables = &mut *self.variables;
        match action {
            Action::Number { to, number } => variables.set(to, number),
            Action::Add { to, left, right } => {
                let sum = variables.get(left).wrapping_add(variables.get(right));
                variables.set(to, sum);
            }
            Action::Subtract { to, left, right } => {
                let difference = variables.get(left).wrapping_sub(variables.get(right));
                variables.set(to, difference);
            }
            Action::Read {
                channel,
                value,
                flag,
            } => {
                let (read, found) = self.channels[usize::from(channel) % CHANNELS].read();
                variables.set(value, read);
                variables.set(flag, found);
            }
            Action::Write { channel, from } => {
                let value = variables.get(from);
                self.channels[usize::from(channel) % CHANNELS].write(value);
            }
            Action::Input { value, flag } => {
                variables.set(value, input.value);
                variables.set(flag, input.present);
            }
            Action::Output { from } => {
                *output = Sample {
                    present: 1,
                    value: variables.get(from),
                };
            }
            Action::Skip { unless, count } => {
                if variables.get(unless) == 0 {
                    return 1 + usize::from(count);
                }
            }
        }
        1
    }
}

impl Machine {
    /// The machine of a sound network at the start of a run.
    pub fn of(network: &Network) -> Self {
        let mut machine = Machine {
            variables: [Variables::default(); PROCESSES],
            channels: [Channel::default(); CHANNELS],
        };
        for (channel, described) in machine.channels.iter_mut().zip(network.channels()) {
            *channel = Channel::of(described);
        }
        machine
    }

    /// Does one action of a job and gives by how many actions the job moves on.
    pub fn step(
        &mut self,
        process: usize,
        action: Action,
        input: Sample,
        output: &mut Sample,
    ) -> usize {
        let mut act = Act {
            variables: &mut self.variables[process],
            channels: &mut self.channels,
        };
        act.step(action, input, output)
    }

    /// Does a whole job and gives its output sample.
    pub fn job(&mut self, process: usize, program: &Program, input: Sample) -> Sample {
        let mut act = Act {
            variables: &mut self.variables[process],
            channels: &mut self.channels,
        };
        let mut output = Sample::default();
        let actions = program.actions();
        let mut place = 0;
        while let Some(&action) = actions.get(place) {
            place += act.step(action, input, &mut output);
        }
        output
    }

    /// What the run leaves.
    pub fn finish(&self) -> Final {
        Final {
            variables: self.variables,
            channels: self.channels.map(|channel| channel.held()),
        }
    }
}

#[cfg(test)]
mod tests {
    use super::*;

    fn queue(capacity: u32) -> Channel {
        Channel::of(&network::Channel {
            kind: 0,
            writer: 0,
            reader: 1,
            capacity,
        })
    }

    #[test]
    fn queue_fills_loses_and_empties() {
        let mut channel = queue(2);
        for value in [5, 6, 7] {
            channel.write(value);
        }
        assert_eq!(
            channel.held(),
            Held {
                held: 2,
                values: [5, 6, 0, 0, 0, 0, 0, 0],
                loss: 1
            }
        );
        assert_eq!(channel.read(), (5, 1));
        channel.write(8);
        assert_eq!(
            [channel.read(), channel.read(), channel.read()],
            [(6, 1), (8, 1), (0, 0)]
        );
        assert_eq!(
            channel.held(),
            Held {
                loss: 1,
                ..Held::default()
            }
        );
    }

    #[test]
    fn board_keeps_the_last_value() {
        let mut channel = Channel::of(&network::Channel {
            kind: 1,
            writer: 0,
            reader: 1,
            capacity: 1,
        });
        assert_eq!(channel.read(), (0, 0));
        channel.write(3);
        channel.write(4);
        assert_eq!([channel.read(), channel.read()], [(4, 1), (4, 1)]);
        assert_eq!(
            channel.held(),
            Held {
                held: 1,
                values: [4, 0, 0, 0, 0, 0, 0, 0],
                loss: 0
            }
        );
    }

    #[test]
    fn flag_stays_when_value_and_flag_share_a_variable() {
        let mut act = Machine::of(&Network::zero());
        act.channels[0] = queue(1);
        act.channels[0].write(9);
        let mut output = Sample::default();
        let action = Action::of([3, 0, 2, 2]);
        act.step(0, action, Sample::default(), &mut output);
        assert_eq!(act.variables[0].words()[2], 1);
        act.step(0, action, Sample::default(), &mut output);
        assert_eq!(act.variables[0].words()[2], 0);
    }
}
