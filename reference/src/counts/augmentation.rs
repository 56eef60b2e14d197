//! (b) Count augmentation, from its definition.

use super::Counts;
use crate::distance::NodeTable;
use crate::model::{LaidOut, Network, Sets, Thresholds};

/// The stored numbers of one set, in the order of the laid-out reports: how
/// many on the report's leg lie no farther from the leg's first end, and from
/// its second end (itself and equals included). A report's gaps are its offset
/// and the length less its offset, on a node too.
#[derive(Clone, Debug, PartialEq, Eq)]
pub struct Augmented {
    pub near_first: Vec<u32>,
    pub near_second: Vec<u32>,
}

/// Find the stored numbers.
pub fn augment(set: &LaidOut) -> Augmented {
    let mut stored = Augmented { near_first: Vec::new(), near_second: Vec::new() };
    for (&leg, &own) in set.legs().iter().zip(set.offsets()) {
        let on_leg = set.first_gaps(leg);
        stored.near_first.push(on_leg.iter().filter(|&&offset| offset <= own).count() as u32);
        // No farther from the second end is not below the own offset.
        stored.near_second.push(on_leg.iter().filter(|&&offset| offset >= own).count() as u32);
    }
    stored
}

/// One leg's reports with their stored numbers.
struct StoredLeg<'a> {
    offsets: &'a [u32],
    near_first: &'a [u32],
    near_second: &'a [u32],
    length: u32,
}

impl StoredLeg<'_> {
    /// How many lie within reach of the first end: the number stored with the
    /// farthest of them.
    fn by_first(&self, reach: u64) -> usize {
        let within = self.offsets.partition_point(|&offset| u64::from(offset) <= reach);
        within.checked_sub(1).map_or(0, |farthest| self.near_first[farthest] as usize)
    }

    /// The same from the second end.
    fn by_second(&self, reach: u64) -> usize {
        let beyond = self.offsets.partition_point(|&offset| u64::from(self.length - offset) > reach);
        self.near_second.get(beyond).map_or(0, |&number| number as usize)
    }
}

/// The shorter of the ways that exist.
fn shorter(one: Option<u64>, other: Option<u64>) -> Option<u64> {
    one.into_iter().chain(other).min()
}

/// For each report, each leg and each threshold: what is left of the threshold
/// at either end of the leg is looked up, and a report that is reached from both
/// ends counts once. On the report's own leg those count too whose offsets
/// differ by no more than the threshold, and itself does not.
pub fn count_augmentation(network: &Network, table: &NodeTable, sets: &Sets, thresholds: &Thresholds) -> Counts {
    sets.all().iter().map(|set| count_augmentation_set(network, table, set, thresholds)).collect()
}

fn count_augmentation_set(network: &Network, table: &NodeTable, set: &LaidOut, thresholds: &Thresholds) -> Vec<u64> {
    let stored = augment(set);
    let mut row = vec![0; thresholds.values().len()];
    for (&own, &offset) in set.legs().iter().zip(set.offsets()) {
        let own_length = network.lengths()[own as usize - 1];
        let gaps = [offset, own_length - offset].map(u64::from);
        for (index, &length) in network.lengths().iter().enumerate() {
            let two = index as u32 + 1;
            let range = set.range(two);
            let leg = StoredLeg {
                offsets: &set.offsets()[range.clone()],
                near_first: &stored.near_first[range.clone()],
                near_second: &stored.near_second[range],
                length,
            };
            let all = leg.offsets.len();
            let [au, av, bu, bv] = table.leg_ends(network, own, two).map(|distance| distance.map(u64::from));
            let to_first = shorter(au.map(|metres| gaps[0] + metres), bu.map(|metres| gaps[1] + metres));
            let to_second = shorter(av.map(|metres| gaps[0] + metres), bv.map(|metres| gaps[1] + metres));
            for (cell, &threshold) in row.iter_mut().zip(thresholds.values()) {
                let threshold = u64::from(threshold);
                let left = |way: Option<u64>| way.and_then(|metres| threshold.checked_sub(metres));
                let by_first = left(to_first).map_or(0, |reach| leg.by_first(reach));
                let by_second = left(to_second).map_or(0, |reach| leg.by_second(reach));
                *cell += if own == two {
                    let not_above = leg.by_first(gaps[0] + threshold);
                    let not_below = leg.by_second(gaps[1] + threshold);
                    let is_reached = |&place: &usize| {
                        place < by_first || place + by_second >= all || (place < not_above && place + not_below >= all)
                    };
                    (0..all).filter(is_reached).count() - 1
                } else {
                    all.min(by_first + by_second)
                } as u64;
            }
        }
    }
    row
}
