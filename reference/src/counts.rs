//! Pair counts: the definition, and three methods.
//!
//! Each gives, for every set and every threshold, the number of ordered pairs
//! of different reports at a distance not above the threshold. The three
//! methods share one table of node distances bounded by the greatest
//! threshold.

mod augmentation;
mod range_query;
mod sharing;

use crate::distance::{location_distance, Location, NodeTable};
use crate::lists::Refusal;
use crate::model::{Network, Sets, Thresholds};

pub use augmentation::{augment, count_augmentation, Augmented};
pub use range_query::range_query;
pub use sharing::{neighbour_sharing, neighbour_sharing_moves, sweep, Mark, Sweep};

/// `counts[set][threshold]`.
pub type Counts = Vec<Vec<u64>>;

/// A gap plus a node distance that is not there: more than any threshold.
const FAR: i64 = 1 << 40;

pub(crate) fn walk(distance: Option<u32>) -> i64 {
    distance.map_or(FAR, i64::from)
}

/// From the definition: every ordered pair, every threshold. Takes the whole
/// node table (`NodeTable::new` or `NodeTable::naive`).
pub fn naive(network: &Network, table: &NodeTable, sets: &Sets, thresholds: &Thresholds) -> Result<Counts, Refusal> {
    let mut answer = Vec::new();
    for set in sets.all() {
        let mut row = vec![0; thresholds.values().len()];
        for i in 0..set.len() {
            for j in 0..set.len() {
                if i == j {
                    continue;
                }
                let a = Location { leg: set.legs()[i], offset: set.offsets()[i] };
                let b = Location { leg: set.legs()[j], offset: set.offsets()[j] };
                if let Some(distance) = location_distance(network, table, a, b)? {
                    for (cell, &threshold) in row.iter_mut().zip(thresholds.values()) {
                        if distance <= threshold {
                            *cell += 1;
                        }
                    }
                }
            }
        }
        answer.push(row);
    }
    Ok(answer)
}

pub(crate) fn length_of(network: &Network, leg: u32) -> i64 {
    network.leg(leg).map_or(0, |(_, _, length)| i64::from(length))
}

/// Of `all` reports in a row, how many are among the first `by_u`, the last
/// `by_v`, or between `below` and `not_above`.
pub(crate) fn joined(all: u32, by_u: u32, by_v: u32, below: u32, not_above: u32) -> u32 {
    let tail = all - by_v.min(all);
    let missed_before = tail.min(below).saturating_sub(by_u);
    let missed_after = tail.saturating_sub(not_above.max(by_u));
    all - missed_before - missed_after
}

/// The three methods.
#[derive(Clone, Copy, Debug, PartialEq, Eq)]
pub enum Method {
    RangeQuery,
    CountAugmentation,
    NeighbourSharing,
}

impl Method {
    /// A method by its short name.
    pub fn named(name: &str) -> Option<Method> {
        Method::ALL.into_iter().find(|method| method.name() == name)
    }

    pub const ALL: [Method; 3] = [Method::RangeQuery, Method::CountAugmentation, Method::NeighbourSharing];

    pub fn name(self) -> &'static str {
        match self {
            Method::RangeQuery => "query",
            Method::CountAugmentation => "augmentation",
            Method::NeighbourSharing => "sharing",
        }
    }
}

/// Counts by one method.
pub fn by(method: Method, network: &Network, sets: &Sets, thresholds: &Thresholds) -> Counts {
    let count = match method {
        Method::RangeQuery => range_query,
        Method::CountAugmentation => count_augmentation,
        Method::NeighbourSharing => neighbour_sharing,
    };
    with_bounded_table(count, network, sets, thresholds)
}

/// Counts by a method with its own bounded table from the ends of the legs that
/// have reports.
pub(crate) fn with_bounded_table(
    count: fn(&Network, &NodeTable, &Sets, &Thresholds) -> Counts,
    network: &Network,
    sets: &Sets,
    thresholds: &Thresholds,
) -> Counts {
    let legs = sets.all().iter().flat_map(|set| set.occupied()).copied();
    let table = NodeTable::bounded_from(network, thresholds.greatest(), legs);
    count(network, &table, sets, thresholds)
}
