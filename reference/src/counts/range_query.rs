//! (a) Range query.

use super::{length_of, walk, Counts};
use crate::distance::NodeTable;
use crate::lists::MAX_THRESHOLDS;
use crate::model::{LaidOut, Network, Sets, Thresholds};

/// Each unordered pair's distance is found once and counted
/// at the first threshold that admits it; prefix sums give the rest.
pub fn range_query(network: &Network, table: &NodeTable, sets: &Sets, thresholds: &Thresholds) -> Counts {
    let steps = Steps::new(thresholds.values());
    let count = thresholds.values().len();
    sets.all().iter().map(|set| range_query_set(network, table, set, &steps, count)).collect()
}

/// The thresholds spread over as many steps as there may be thresholds, the
/// greatest repeated behind itself: a search takes the same halvings for every
/// distance, with no branch.
struct Steps([u32; MAX_THRESHOLDS]);

impl Steps {
    fn new(values: &[u32]) -> Steps {
        let greatest = values.last().copied().unwrap_or(0);
        let mut steps = [greatest; MAX_THRESHOLDS];
        for (step, &value) in steps.iter_mut().zip(values) {
            *step = value;
        }
        Steps(steps)
    }

    /// How many steps do not admit the distance.
    #[inline]
    fn below(&self, distance: i64) -> usize {
        let mut passed = 0;
        for half in [32, 16, 8, 4, 2, 1, 1] {
            passed += half * usize::from(i64::from(self.0[passed + half - 1]) < distance);
        }
        passed
    }
}

fn range_query_set(network: &Network, table: &NodeTable, set: &LaidOut, steps: &Steps, count: usize) -> Vec<u64> {
    // First admitted at step k; the last cell is for none.
    let mut first_at = [0u32; MAX_THRESHOLDS + 1];
    let mut admit = |distance: i64| first_at[steps.below(distance)] += 1;
    for (rank, &one) in set.occupied().iter().enumerate() {
        let one_gaps = set.first_gaps(one);
        let one_length = length_of(network, one);
        // On one leg, with the first report not beyond the second: direct, or
        // out by the first end and in by the second. The other three routes
        // are never shorter than the direct stretch.
        let around = walk(table.leg_ends(network, one, one)[1]);
        for (i, &x) in one_gaps.iter().enumerate() {
            for &y in &one_gaps[i + 1..] {
                let (x, y) = (i64::from(x), i64::from(y));
                admit((y - x).min(x + around + one_length - y));
            }
        }
        for &two in &set.occupied()[rank + 1..] {
            let ends = table.leg_ends(network, one, two);
            if ends == [None; 4] {
                continue;
            }
            let [au, av, bu, bv] = ends.map(walk);
            let two_length = length_of(network, two);
            for &x in one_gaps {
                let x = i64::from(x);
                let to_u = (x + au).min(one_length - x + bu);
                let to_v = (x + av).min(one_length - x + bv) + two_length;
                for &y in set.first_gaps(two) {
                    let y = i64::from(y);
                    admit((to_u + y).min(to_v - y));
                }
            }
        }
    }
    // Each pair counts from both its reports.
    let mut sum = 0;
    first_at[..count]
        .iter()
        .map(|&here| {
            sum += u64::from(here);
            2 * sum
        })
        .collect()
}
