//! Random inputs, good and damaged, for comparing and timing.

mod damage;
mod gathered;
mod texts;

use crate::lists::{MAX_LEGS, MAX_LENGTH, MAX_NODES, MAX_REPORTS, MAX_SET, MAX_THRESHOLDS};

pub use damage::*;
pub use gathered::*;
pub use texts::*;

/// A xorshift generator (64 bits, multiplied on the way out).
#[derive(Clone, Debug)]
pub struct Rng {
    state: u64,
}

impl Rng {
    pub fn new(seed: u64) -> Rng {
        // Spread small seeds; the state must not be 0.
        let state = seed.wrapping_add(1).wrapping_mul(0x9E37_79B9_7F4A_7C15);
        Rng { state: if state == 0 { 1 } else { state } }
    }

    pub fn draw(&mut self) -> u64 {
        self.state ^= self.state >> 12;
        self.state ^= self.state << 25;
        self.state ^= self.state >> 27;
        self.state.wrapping_mul(0x2545_F491_4F6C_DD1D) >> 8
    }

    /// 0 up to and without `n`; 0 if `n` is 0.
    pub fn below(&mut self, n: u64) -> u64 {
        if n == 0 {
            return 0;
        }
        self.draw() % n
    }

    /// From `low` to `high`, both included; `low` if they are the wrong way.
    pub fn between(&mut self, low: u32, high: u32) -> u32 {
        if high <= low {
            return low;
        }
        low + self.below(u64::from(high - low) + 1) as u32
    }

    /// True once in `n` times.
    pub fn once_in(&mut self, n: u64) -> bool {
        self.below(n) == 0
    }

    /// An index into a list of this length (0 for an empty one).
    pub fn index(&mut self, length: usize) -> usize {
        self.below(length as u64) as usize
    }

    pub fn pick<T: Copy>(&mut self, list: &[T], otherwise: T) -> T {
        let index = self.index(list.len());
        list.get(index).copied().unwrap_or(otherwise)
    }
}

/// Lists of a network (good or not).
#[derive(Clone, Debug, PartialEq, Eq)]
pub struct NetworkInput {
    pub nodes: u32,
    pub firsts: Vec<u32>,
    pub seconds: Vec<u32>,
    pub lengths: Vec<u32>,
}

/// Lists of reports of all sets (good or not).
#[derive(Clone, Debug, PartialEq, Eq)]
pub struct ReportInput {
    pub sets: Vec<u32>,
    pub legs: Vec<u32>,
    pub offsets: Vec<u32>,
}

/// A good network of 1 to `max_nodes` nodes and 1 to `max_legs` legs, each 1
/// to `max_length` long, some of them loops. Parts that do not hang together,
/// legs side by side and nodes without a leg come up by themselves when the
/// numbers are small.
pub fn network(rng: &mut Rng, max_nodes: u32, max_legs: usize, max_length: u32) -> NetworkInput {
    let nodes = rng.between(1, max_nodes.clamp(1, MAX_NODES));
    let legs = rng.between(1, max_legs.clamp(1, MAX_LEGS) as u32) as usize;
    let loops = if nodes == 1 { legs } else { rng.pick(&[0, 0, 1, 2, 4], 0).min(legs) };
    let mut input = if loops < legs {
        network_of(rng, nodes, legs - loops, max_length)
    } else {
        NetworkInput { nodes, firsts: Vec::new(), seconds: Vec::new(), lengths: Vec::new() }
    };
    add_loops(rng, &mut input, loops, max_length);
    input
}

/// Puts so many loops, legs from a node to itself, among the legs of a network:
/// the first of them in front of all legs, so that reports on few legs lie on a
/// loop too, the others anywhere. Half of them are at the node of the loop
/// before. Some are 1 m long, which have no place inside, and some as long as
/// may be.
pub fn add_loops(rng: &mut Rng, input: &mut NetworkInput, count: usize, max_length: u32) {
    let mut node = rng.between(1, input.nodes);
    for done in 0..count {
        if rng.once_in(2) {
            node = rng.between(1, input.nodes);
        }
        let at = if done == 0 { 0 } else { rng.index(input.lengths.len() + 1) };
        let length = match rng.below(6) {
            0 => 1,
            1 => max_length,
            _ => rng.between(1, max_length),
        };
        input.firsts.insert(at, node);
        input.seconds.insert(at, node);
        input.lengths.insert(at, length);
    }
}

/// A ring network as below of which so many legs are loops.
pub fn ring_with_loops(rng: &mut Rng, nodes: u32, legs: usize, loops: usize, max_length: u32) -> NetworkInput {
    let mut input = ring_network(rng, nodes, legs - loops, max_length);
    add_loops(rng, &mut input, loops, max_length);
    input
}

/// A good network of just so many nodes (at least 2) and legs, none of them a
/// loop.
pub fn network_of(rng: &mut Rng, nodes: u32, legs: usize, max_length: u32) -> NetworkInput {
    let nodes = nodes.clamp(2, MAX_NODES);
    let max_length = max_length.clamp(1, MAX_LENGTH);
    let mut input = NetworkInput { nodes, firsts: Vec::new(), seconds: Vec::new(), lengths: Vec::new() };
    // Now and then two parts with no leg between them.
    let cut = if nodes >= 4 && rng.once_in(4) { rng.between(2, nodes - 2) } else { nodes };
    for leg in 0..legs.clamp(1, MAX_LEGS) {
        let (low, high) = if cut < nodes && rng.once_in(2) { (cut + 1, nodes) } else { (1, cut) };
        let mut first = rng.between(low, high);
        let mut second = rng.between(low, high - 1);
        if second >= first {
            second += 1;
        }
        // Now and then a leg beside the one before it.
        if leg > 0 && rng.once_in(6) {
            first = input.firsts[leg - 1];
            second = input.seconds[leg - 1];
            if rng.once_in(2) {
                std::mem::swap(&mut first, &mut second);
            }
        }
        input.firsts.push(first);
        input.seconds.push(second);
        input.lengths.push(if rng.once_in(8) { max_length } else { rng.between(1, max_length) });
    }
    input
}

/// A network that hangs together: a ring over all nodes, and more legs, none of
/// them a loop.
pub fn ring_network(rng: &mut Rng, nodes: u32, legs: usize, max_length: u32) -> NetworkInput {
    let mut input = network_of(rng, nodes, legs, max_length);
    let nodes = input.nodes;
    for leg in 0..input.firsts.len().min(nodes as usize) {
        input.firsts[leg] = leg as u32 + 1;
        input.seconds[leg] = (leg as u32 + 1) % nodes + 1;
    }
    for leg in nodes as usize..input.firsts.len() {
        let first = rng.between(1, nodes);
        let second = rng.between(1, nodes - 1);
        input.firsts[leg] = first;
        input.seconds[leg] = if second >= first { second + 1 } else { second };
    }
    input
}

/// Networks of other shapes, all nodes used, the legs in any order.
#[derive(Clone, Copy, Debug, PartialEq, Eq)]
pub enum Shape {
    /// A ring and as many legs again.
    Ring,
    /// Any two nodes, two legs for a node.
    Any,
    /// Rows and columns.
    Grid,
    /// One node after the other.
    Path,
    /// Each node hangs on an earlier one.
    Tree,
    /// A ring, and a loop at each node.
    Basins,
}

impl Shape {
    pub const ALL: [Shape; 6] = [Shape::Ring, Shape::Any, Shape::Grid, Shape::Path, Shape::Tree, Shape::Basins];

    pub fn name(self) -> &'static str {
        match self {
            Shape::Ring => "ring",
            Shape::Any => "any",
            Shape::Grid => "grid",
            Shape::Path => "path",
            Shape::Tree => "tree",
            Shape::Basins => "basins",
        }
    }

    /// At least two nodes.
    pub fn network(self, rng: &mut Rng, nodes: u32, max_length: u32) -> NetworkInput {
        let side = (1..).find(|side| side * side >= nodes).unwrap_or(1);
        let mut ends: Vec<(u32, u32)> = match self {
            Shape::Ring => (1..=nodes).map(|node| (node, node % nodes + 1)).collect(),
            Shape::Any => Vec::new(),
            Shape::Grid => (1..nodes)
                .flat_map(|node| [(node, node + 1), (node, node + side)])
                .filter(|&(node, next)| next <= nodes && (next != node + 1 || node % side != 0))
                .collect(),
            Shape::Path => (1..nodes).map(|node| (node, node + 1)).collect(),
            Shape::Tree => (2..=nodes).map(|node| (rng.between(1, node - 1), node)).collect(),
            Shape::Basins => (1..=nodes).flat_map(|node| [(node, node % nodes + 1), (node, node)]).collect(),
        };
        if matches!(self, Shape::Ring | Shape::Any) {
            while ends.len() < 2 * nodes as usize {
                let (first, second) = (rng.between(1, nodes), rng.between(1, nodes - 1));
                ends.push((first, if second >= first { second + 1 } else { second }));
            }
        }
        ends.truncate(MAX_LEGS);
        for last in (1..ends.len()).rev() {
            ends.swap(last, rng.index(last + 1));
        }
        NetworkInput {
            nodes,
            firsts: ends.iter().map(|ends| ends.0).collect(),
            seconds: ends.iter().map(|ends| ends.1).collect(),
            lengths: ends.iter().map(|_| rng.between(1, max_length)).collect(),
        }
    }
}

fn offset(rng: &mut Rng, length: u32) -> u32 {
    match rng.below(8) {
        0 => 0,
        1 => length,
        _ => rng.between(0, length),
    }
}

/// Good reports: `sets` sets of `per_set` each, mixed in order, on the first
/// `on_legs` legs (all of them if that is 0). Repeats are likely.
pub fn reports(rng: &mut Rng, network: &NetworkInput, sets: u32, per_set: usize, on_legs: usize) -> ReportInput {
    reports_drawn(rng, network, sets, per_set, |rng, legs| match on_legs {
        0 => rng.index(legs),
        some => rng.index(some.min(legs)),
    })
}

/// The same, with the index of each report's leg drawn in some way from the
/// number of legs.
fn reports_drawn(
    rng: &mut Rng,
    network: &NetworkInput,
    sets: u32,
    per_set: usize,
    index_of: impl Fn(&mut Rng, usize) -> usize,
) -> ReportInput {
    let mut input = ReportInput { sets: Vec::new(), legs: Vec::new(), offsets: Vec::new() };
    let legs = network.lengths.len();
    let sets = sets.clamp(1, MAX_SET + 1);
    let per_set = per_set.min(MAX_REPORTS / sets as usize);
    if legs == 0 {
        return input;
    }
    for count in 0..sets as usize * per_set {
        let index = index_of(rng, legs);
        let mut report = (index as u32 + 1, offset(rng, network.lengths[index]));
        if count > 0 && rng.once_in(10) {
            let old = rng.index(count);
            report = (input.legs[old], input.offsets[old]);
        }
        input.sets.push((count / per_set) as u32);
        input.legs.push(report.0);
        input.offsets.push(report.1);
    }
    for last in (1..input.sets.len()).rev() {
        let other = rng.index(last + 1);
        input.sets.swap(last, other);
        input.legs.swap(last, other);
        input.offsets.swap(last, other);
    }
    input
}

/// 1 to `max_count` good thresholds up to about `max_value`, now and then with
/// 0 or the greatest number among them.
pub fn thresholds(rng: &mut Rng, max_count: usize, max_value: u32) -> Vec<u32> {
    let count = rng.between(1, max_count.clamp(1, MAX_THRESHOLDS) as u32) as usize;
    let mut values: Vec<u32> = (0..count).map(|_| rng.between(0, max_value)).collect();
    if rng.once_in(8) {
        values[0] = 0;
    }
    if rng.once_in(8) {
        values[count - 1] = u32::MAX;
    }
    values.sort_unstable();
    values.dedup();
    values
}

/// Just so many rising thresholds, evenly spread up to about `max_value`.
pub fn even_thresholds(count: usize, max_value: u32) -> Vec<u32> {
    let count = count.clamp(1, MAX_THRESHOLDS) as u64;
    let step = (u64::from(max_value) / count).max(1);
    (1..=count).map(|k| (k * step).min(u64::from(u32::MAX)) as u32).collect()
}

/// Each at least one more than the one before.
fn rising(mut values: Vec<u32>) -> Vec<u32> {
    for k in 1..values.len() {
        values[k] = values[k].max(values[k - 1] + 1);
    }
    values
}

/// How thresholds lie to the legs.
#[derive(Clone, Copy, Debug)]
pub enum Spread {
    /// Evenly up to about the widest distance of a ring network.
    Even,
    /// Evenly up to half of the longest leg.
    Short,
    /// 1, 2, 3 and so on, and one as long as all legs together.
    Far,
    /// One half evenly up to a quarter of the longest leg, the other every
    /// three such legs.
    Halves,
    /// Each so many times the one before, up to all legs together.
    Growing,
    /// One after the other, from twice the longest leg on.
    Crowded,
}

impl Spread {
    pub const ALL: [Spread; 6] = [Spread::Even, Spread::Short, Spread::Far, Spread::Halves, Spread::Growing, Spread::Crowded];

    pub fn name(self) -> &'static str {
        match self {
            Spread::Even => "even",
            Spread::Short => "short",
            Spread::Far => "far",
            Spread::Halves => "halves",
            Spread::Growing => "growing",
            Spread::Crowded => "crowded",
        }
    }

    /// Just so many rising thresholds over a ring network with legs of up to
    /// `longest` metres.
    pub fn thresholds(self, count: usize, longest: u32) -> Vec<u32> {
        let all = longest.saturating_mul(MAX_LEGS as u32);
        match self {
            Spread::Even => even_thresholds(count, longest.saturating_mul(6).max(64)),
            Spread::Short => even_thresholds(count, longest / 2),
            Spread::Far => (1..count as u32).chain([all]).collect(),
            Spread::Halves => {
                let low = count / 2;
                let high = (1..=(count - low) as u32).map(|k| longest.saturating_mul(3 * k));
                rising(even_thresholds(low, longest / 4).into_iter().take(low).chain(high).collect())
            }
            Spread::Growing => {
                let times = f64::from(all).powf(1.0 / count as f64);
                rising((1..=count as i32).map(|k| times.powi(k) as u32).collect())
            }
            Spread::Crowded => (0..count as u32).map(|k| longest.saturating_mul(2) + k).collect(),
        }
    }
}

/// Up to 64 rising thresholds that are not evenly spread: growing from small
/// ones, crowded in one place, or small ones and a few near the greatest.
pub fn uneven_thresholds(rng: &mut Rng, max_value: u32) -> Vec<u32> {
    let (kind, place) = (rng.below(3), rng.between(0, max_value));
    let mut values: Vec<u32> = (0..MAX_THRESHOLDS)
        .map(|k| match kind {
            0 => rng.between(0, max_value) >> rng.below(32),
            1 => place.saturating_add(rng.between(0, 200)),
            _ if k < 4 => u32::MAX - rng.between(0, 1_000),
            _ => rng.between(0, 70),
        })
        .collect();
    values.sort_unstable();
    values.dedup();
    values
}
