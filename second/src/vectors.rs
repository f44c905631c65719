//! A fixed sample of small generated cases in the words of the program `cases`: the source that
//! makes the calls, and the lines that they print if the library gives what this program gives.

mod calls;
mod lines;
mod source;

use crate::generate;

/// The seed of the cases that the sample is taken from.
const SEED: u64 = 1;

/// One call.
#[derive(Clone, Debug)]
pub struct Vector {
    pub reply: u32,
    /// The statements that make the call.
    pub statements: Vec<String>,
    /// The line that it prints.
    pub line: String,
}

/// The whole sample: for each function the first small cases that get these replies.
pub fn sample() -> Vec<Vector> {
    let wanted: [(&[u32], calls::Maker); 9] = [
        (&[0, 1, 2, 4, 5, 6, 7, 8, 9], calls::read),
        (&[0, 4, 5, 6, 7, 10], calls::write),
        (&[0, 0, 5, 7], calls::graph),
        (&[0, 0, 10, 16], calls::zero_delay),
        (&[0, 0, 10, 19], calls::plan),
        (&[0, 11, 12, 13, 14, 15], calls::check),
        (&[0, 0, 15, 17], calls::turns),
        (&[0, 0, 14, 18], calls::timed),
        (&[0, 0, 10, 19], calls::list),
    ];
    let each = wanted.iter();
    each.flat_map(|(replies, maker)| first(replies, *maker))
        .collect()
}

/// The first cases that get these replies, one for each.
fn first(replies: &[u32], maker: calls::Maker) -> Vec<Vector> {
    let mut wanted = replies.to_vec();
    let made = |number| maker(&format!("case {number}"), &generate::case(SEED, number));
    let mut is_wanted = |vector: &Vector| {
        let place = wanted.iter().position(|&reply| reply == vector.reply);
        place.map(|place| wanted.remove(place)).is_some()
    };
    let vectors = (0..).filter_map(made).filter(|vector| is_wanted(vector));
    vectors.take(replies.len()).collect()
}

/// The source of the module that makes the calls.
pub fn source(sample: &[Vector]) -> String {
    source::module(sample)
}

/// The lines that it prints.
pub fn lines(sample: &[Vector]) -> String {
    let lines = sample.iter().map(|vector| format!("{}\n", vector.line));
    lines.collect()
}
