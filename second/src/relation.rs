//! The pairs as a relation between processes, and the chains that they form.

use crate::network::{Network, PROCESSES};

/// A set of processes, one bit each.
pub type ProcessSet = u16;

/// Which process stands directly above which.
#[derive(Clone, Debug, Default)]
pub struct Relation {
    lower: [ProcessSet; PROCESSES],
}

impl Relation {
    /// The relation of a sound network's pairs.
    pub fn of(network: &Network) -> Self {
        let mut relation = Relation::default();
        for pair in network.pairs() {
            relation.add(pair.higher as usize, pair.lower as usize);
        }
        relation
    }

    pub fn add(&mut self, higher: usize, lower: usize) {
        self.lower[higher] |= 1 << lower;
    }

    pub fn has(&self, higher: usize, lower: usize) -> bool {
        self.lower[higher] >> lower & 1 == 1
    }

    /// The processes that a chain leads to, for each process.
    pub fn chains(&self) -> Chains {
        let mut leads_to = self.lower;
        for middle in 0..PROCESSES {
            let beyond = leads_to[middle];
            for set in &mut leads_to {
                if *set >> middle & 1 == 1 {
                    *set |= beyond;
                }
            }
        }
        Chains { leads_to }
    }
}

/// Which process a chain of pairs leads to from which.
#[derive(Clone, Debug)]
pub struct Chains {
    leads_to: [ProcessSet; PROCESSES],
}

impl Chains {
    /// Whether a chain leads from some process back to itself.
    pub fn have_cycle(&self) -> bool {
        let mut each = self.leads_to.iter().enumerate();
        each.any(|(process, set)| set >> process & 1 == 1)
    }

    /// For each process, those from which a chain leads to it.
    pub fn ahead(&self) -> [ProcessSet; PROCESSES] {
        let mut ahead = [0; PROCESSES];
        for (process, set) in self.leads_to.iter().enumerate() {
            for (other, ahead_of_other) in ahead.iter_mut().enumerate() {
                *ahead_of_other |= (set >> other & 1) << process;
            }
        }
        ahead
    }

    /// For each process, itself and those related to it.
    pub fn related(&self) -> [ProcessSet; PROCESSES] {
        let mut related = self.ahead();
        for (process, set) in related.iter_mut().enumerate() {
            *set |= self.leads_to[process] | 1 << process;
        }
        related
    }
}

#[cfg(test)]
mod tests {
    use super::*;

    #[test]
    fn chains_and_cycles() {
        let mut relation = Relation::default();
        relation.add(3, 1);
        relation.add(1, 2);
        let chains = relation.chains();
        assert!(!chains.have_cycle());
        assert_eq!(chains.leads_to[3], 0b0110);
        assert_eq!(chains.ahead()[2], 0b1010);
        assert_eq!(chains.related()[1], 0b1110);
        relation.add(2, 3);
        assert!(relation.chains().have_cycle());
    }
}
