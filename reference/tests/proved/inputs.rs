//! Random inputs for the comparisons with the proved library, and the refusals
//! that a comparison met.

use std::collections::BTreeSet;

use reference::lists::{Refusal, MAX_LENGTH};
use reference::model::Network;
use reference::random::{self, NetworkInput, Rng};

/// The refusals met, so that a test can say that it met them all.
#[derive(Default)]
pub struct Met(BTreeSet<u32>);

impl Met {
    pub fn note<T>(&mut self, result: &Result<T, Refusal>) {
        self.0.insert(result.as_ref().err().map_or(0, |refusal| refusal.number));
    }

    /// 0 stands for no refusal.
    pub fn all(&self, numbers: &[u32]) {
        assert_eq!(self.0, numbers.iter().copied().collect::<BTreeSet<u32>>(), "the refusals met");
    }
}

/// Small, now and then with lengths up to the limit; damaged if wanted.
pub fn network(rng: &mut Rng, damaged: bool) -> NetworkInput {
    let length = rng.pick(&[1, 3, 9, 40, MAX_LENGTH], 9);
    let mut input = random::network(rng, 8, 11, length);
    if damaged {
        random::damage_network(rng, &mut input);
    }
    input
}

pub fn made(input: &NetworkInput) -> Network {
    Network::new(input.nodes, &input.firsts, &input.seconds, &input.lengths).expect("a good network")
}

/// A number of so many, from 1; now and then one that is none of them.
pub fn one_of(rng: &mut Rng, many: u32) -> u32 {
    match rng.below(12) {
        0 => 0,
        1 => many.saturating_add(1),
        2 => random::near_limit(rng),
        _ => rng.between(1, many.max(1)),
    }
}

/// A list with values of its own: with room to spare, or too short.
pub fn answer_list(rng: &mut Rng, wanted: usize) -> Vec<u32> {
    let length = match rng.below(8) {
        0 => wanted.saturating_sub(1),
        1..=3 => wanted,
        _ => wanted + rng.index(5),
    };
    (0..length).map(|k| 1_000_000_000 + k as u32).collect()
}

/// The list afterwards: the values and then what stood behind them.
pub fn filled(values: &[u32], old: &[u32]) -> Vec<u32> {
    values.iter().chain(old.iter().skip(values.len())).copied().collect()
}
