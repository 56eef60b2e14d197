//! For timing only: a count augmentation that is as fast as it can be had here,
//! with shortcuts that the proved one has too, and a guess at the fastest of the
//! three methods. The proved code is timed beside it and never compared with it.

use crate::counts::{self, joined, length_of, walk, with_bounded_table, Augmented, Counts, Method};
use crate::distance::NodeTable;
use crate::model::{LaidOut, Network, Sets, Thresholds};

/// As `counts::augment`, in one pass over each leg.
pub fn augment(set: &LaidOut) -> Augmented {
    let mut near_first = vec![0; set.len()];
    let mut near_second = vec![0; set.len()];
    for &leg in set.occupied() {
        let range = set.range(leg);
        let own = &set.offsets()[range.clone()];
        let near_first = &mut near_first[range.clone()];
        let near_second = &mut near_second[range];
        // Equal offsets share the number of the last (first) of them.
        let mut from = 0;
        while from < own.len() {
            let equals = own[from..].iter().take_while(|&&offset| offset == own[from]).count();
            let to = from + equals;
            near_first[from..to].fill(to as u32);
            near_second[from..to].fill((own.len() - from) as u32);
            from = to;
        }
    }
    Augmented { near_first, near_second }
}

/// One leg's reports with their stored numbers.
struct StoredLeg<'a> {
    offsets: &'a [u32],
    near_first: &'a [u32],
    near_second: &'a [u32],
    length: i64,
}

impl StoredLeg<'_> {
    /// How many have an offset not above `reach`: the number stored with the
    /// last of them.
    fn up_to(&self, reach: i64) -> u32 {
        let k = self.offsets.partition_point(|&offset| i64::from(offset) <= reach);
        k.checked_sub(1).map_or(0, |last| self.near_first[last])
    }

    /// How many have an offset not below `from`: the number stored with the
    /// first of them.
    fn from(&self, from: i64) -> u32 {
        let k = self.offsets.partition_point(|&offset| i64::from(offset) < from);
        self.near_second.get(k).copied().unwrap_or(0)
    }

    fn all(&self) -> u32 {
        self.offsets.len() as u32
    }

    /// How many are reached, so far from the leg's first end and so far from
    /// its second. Nothing is looked up where it reaches none or all.
    fn reached(&self, by_u: i64, by_v: i64) -> u32 {
        if by_u < 0 && by_v < 0 {
            return 0;
        }
        if by_u >= self.length || by_v >= self.length {
            return self.all();
        }
        self.all().min(self.up_to(by_u) + self.from(self.length - by_v))
    }

    /// The same with those from an offset up to another.
    fn reached_around(&self, by_u: i64, by_v: i64, from: i64, to: i64) -> u32 {
        let below = self.all() - self.from(from);
        joined(self.all(), self.up_to(by_u), self.from(self.length - by_v), below, self.up_to(to))
    }
}

/// For each unordered pair of legs and each threshold,
/// unless no end of the one is in reach of an end of the other, or the whole of
/// the one is in reach of the whole of the other: for each report of the first
/// leg two looked-up numbers (four on one leg) with the overlap taken off.
pub fn count_augmentation(network: &Network, table: &NodeTable, sets: &Sets, thresholds: &Thresholds) -> Counts {
    sets.all().iter().map(|set| count_augmentation_set(network, table, set, thresholds)).collect()
}

fn count_augmentation_set(network: &Network, table: &NodeTable, set: &LaidOut, thresholds: &Thresholds) -> Vec<u64> {
    let stored = augment(set);
    let mut row = vec![0u64; thresholds.values().len()];
    for (rank, &one) in set.occupied().iter().enumerate() {
        let one_length = length_of(network, one);
        for &two in &set.occupied()[rank..] {
            let ends = table.leg_ends(network, one, two);
            if ends == [None; 4] {
                continue;
            }
            let [au, av, bu, bv] = ends.map(walk);
            let nearest = au.min(av).min(bu).min(bv);
            let range = set.range(two);
            let leg = StoredLeg {
                offsets: &set.offsets()[range.clone()],
                near_first: &stored.near_first[range.clone()],
                near_second: &stored.near_second[range],
                length: length_of(network, two),
            };
            for (cell, &threshold) in row.iter_mut().zip(thresholds.values()) {
                let threshold = i64::from(threshold);
                if one != two && nearest > threshold {
                    continue;
                }
                let count = if one != two && nearest + one_length + leg.length <= threshold {
                    set.first_gaps(one).len() as u64 * u64::from(leg.all())
                } else {
                    let reached = |&x: &u32| {
                        let x = i64::from(x);
                        let by_u = threshold - (x + au).min(one_length - x + bu);
                        let by_v = threshold - (x + av).min(one_length - x + bv);
                        u64::from(if one == two {
                            leg.reached_around(by_u, by_v, x - threshold, x + threshold) - 1
                        } else {
                            leg.reached(by_u, by_v)
                        })
                    };
                    set.first_gaps(one).iter().map(reached).sum()
                };
                // Two legs count once from either.
                *cell += if one == two { count } else { 2 * count };
            }
        }
    }
    row
}

// Rough times in tenths of a nanosecond, from `plain_bench`: looking at a pair
// of legs; a pair of reports, and each halving of the thresholds for it; each
// halving of a leg's reports; a report in a sweep.
const LEG_PAIR: u64 = 100;
const REPORT_PAIR: u64 = 25;
const HALVE_THRESHOLDS: u64 = 8;
const HALVE_REPORTS: u64 = 24;
const SWEEP_STEP: u64 = 100;

/// The method that should take least time, by rough step counts.
pub fn fastest(sets: &Sets, thresholds: &Thresholds) -> Method {
    let marks = thresholds.values().len() as u64;
    let halvings = |count: u64| u64::from(count.max(1).ilog2());
    let (mut query, mut augmentation, mut sharing) = (0u64, 0u64, 0u64);
    for set in sets.all() {
        let reports = set.len() as u64;
        let legs = set.occupied().len() as u64;
        let looks = reports * legs * marks / 2;
        let search = halvings(reports / legs.max(1)) + 1;
        query += legs * legs / 2 * LEG_PAIR;
        query += reports * reports / 2 * (REPORT_PAIR + HALVE_THRESHOLDS * halvings(marks));
        augmentation += legs * legs / 2 * LEG_PAIR + looks * search * HALVE_REPORTS;
        sharing += legs * legs / 2 * LEG_PAIR + looks * SWEEP_STEP;
    }
    if query <= augmentation && query <= sharing {
        Method::RangeQuery
    } else if augmentation < sharing {
        Method::CountAugmentation
    } else {
        Method::NeighbourSharing
    }
}

/// As `counts::by`, with the count augmentation of this module.
pub fn by(method: Method, network: &Network, sets: &Sets, thresholds: &Thresholds) -> Counts {
    match method {
        Method::CountAugmentation => with_bounded_table(count_augmentation, network, sets, thresholds),
        other => counts::by(other, network, sets, thresholds),
    }
}
