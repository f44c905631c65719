//! The precedence of jobs, its transitive reduction and the count of the edges that stay.

use crate::frame::{Frame, Job, JOBS};
use crate::network::{Network, PROCESSES};
use crate::read::read;
use crate::refusal::Refusal;
use crate::relation::{Chains, Relation};

/// A row of 128 marks, one for each job.
pub type Row = u128;

/// The numbers that a row marks, from the least on.
pub fn marked(row: Row) -> impl Iterator<Item = usize> {
    let mut left = row;
    std::iter::from_fn(move || {
        let least = left.trailing_zeros() as usize;
        left &= left.wrapping_sub(1);
        (least < JOBS).then_some(least)
    })
}

/// The jobs of a frame and the edges that stay: bit k of row i marks one from job i to job k.
#[derive(Clone, Debug)]
pub struct Graph {
    pub frame: Frame,
    pub rows: [Row; JOBS],
    pub edges: u32,
}

/// Gives the job sequence and the reduced precedence graph of a network file.
pub fn graph(file: &[u8]) -> Result<Graph, Refusal> {
    read(file).map(|network| Graph::of(&network))
}

impl Graph {
    /// The graph of a sound network.
    pub fn of(network: &Network) -> Self {
        let relation = Relation::of(network);
        let frame = Frame::of(network, &relation);
        let rows = reduce(&precedence(frame.jobs(), &relation.chains()));
        let edges = rows.iter().map(|row| row.count_ones()).sum();
        Graph { frame, rows, edges }
    }
}

/// Row i marks the later jobs of the same process or of related ones.
pub fn precedence(jobs: &[Job], chains: &Chains) -> [Row; JOBS] {
    let of_related = of_related(jobs, chains);
    let mut rows: [Row; JOBS] = [0; JOBS];
    for (number, job) in jobs.iter().enumerate() {
        let later = Row::MAX << number << 1;
        rows[number] = of_related[job.process as usize] & later;
    }
    rows
}

/// Row i marks the earlier jobs of the same process or of related ones.
pub fn predecessors(jobs: &[Job], chains: &Chains) -> [Row; JOBS] {
    let of_related = of_related(jobs, chains);
    let mut rows: [Row; JOBS] = [0; JOBS];
    for (number, job) in jobs.iter().enumerate() {
        let earlier = (1 << number) - 1;
        rows[number] = of_related[job.process as usize] & earlier;
    }
    rows
}

/// For each process, the jobs of its own and of related ones.
fn of_related(jobs: &[Job], chains: &Chains) -> [Row; PROCESSES] {
    let mut of_process = [0; PROCESSES];
    for (number, job) in jobs.iter().enumerate() {
        of_process[job.process as usize] |= 1 << number;
    }
    chains.related().map(|set| {
        let members = (0..PROCESSES).filter(|process| set >> process & 1 == 1);
        members.fold(0, |row, process| row | of_process[process])
    })
}

/// Keeps the edges whose ends no other path joins. Successors are taken from the nearest on: one
/// that an earlier successor reaches is joined by a path through it.
pub fn reduce(rows: &[Row; JOBS]) -> [Row; JOBS] {
    let mut reached: [Row; JOBS] = [0; JOBS];
    let mut stays: [Row; JOBS] = [0; JOBS];
    for number in (0..JOBS).rev() {
        let mut left = rows[number];
        while left != 0 {
            let successor = left.trailing_zeros() as usize;
            stays[number] |= 1 << successor;
            reached[number] |= 1 << successor | reached[successor];
            left &= !reached[number];
        }
    }
    stays
}

#[cfg(test)]
mod tests {
    use super::*;
    use crate::generate::{networks, random::Random};

    /// The rule itself, path by path.
    fn other_path(rows: &[Row; JOBS], from: usize, to: usize) -> bool {
        let mut seen: Row = 0;
        let mut open = vec![from];
        while let Some(job) = open.pop() {
            for next in (0..JOBS).filter(|next| rows[job] >> next & 1 == 1) {
                if next == to && job != from {
                    return true;
                }
                if next < to && seen >> next & 1 == 0 {
                    seen |= 1 << next;
                    open.push(next);
                }
            }
        }
        false
    }

    #[test]
    fn marks_are_named_in_order() {
        let row = 1 | 1 << 3 | 1 << 64 | 1 << 127;
        assert_eq!(marked(row).collect::<Vec<_>>(), [0, 3, 64, 127]);
        assert_eq!(marked(0).next(), None);
    }

    #[test]
    fn both_directions_agree() {
        for seed in 0..60 {
            let network = networks::any(&mut Random::new(seed)).1;
            let relation = Relation::of(&network);
            let frame = Frame::of(&network, &relation);
            let after = precedence(frame.jobs(), &relation.chains());
            let before = predecessors(frame.jobs(), &relation.chains());
            for (from, row) in after.iter().enumerate() {
                for (to, row_before) in before.iter().enumerate() {
                    assert_eq!(row >> to & 1, row_before >> from & 1);
                }
            }
        }
    }

    #[test]
    fn reduction_by_the_rule() {
        for seed in 0..60 {
            let network = networks::any(&mut Random::new(seed)).1;
            let relation = Relation::of(&network);
            let frame = Frame::of(&network, &relation);
            let rows = precedence(frame.jobs(), &relation.chains());
            let stays = reduce(&rows);
            for from in 0..JOBS {
                for to in 0..JOBS {
                    let edge = rows[from] >> to & 1 == 1;
                    let wanted = edge && !other_path(&rows, from, to);
                    assert_eq!(stays[from] >> to & 1 == 1, wanted, "{seed}: {from} to {to}");
                }
            }
        }
    }
}
