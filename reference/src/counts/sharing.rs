//! (c) Neighbour sharing.

use super::{joined, length_of, walk, Counts};
use crate::distance::NodeTable;
use crate::lists::Refusal;
use crate::model::{LaidOut, Network, Sets, Thresholds};

/// One mark of a sweep: its position at each report of the first leg, and the
/// summed differences from rest to the last report.
#[derive(Clone, Debug, PartialEq, Eq)]
pub struct Mark {
    pub positions: Vec<u32>,
    pub moves: u64,
}

/// The marks of two legs at one threshold.
#[derive(Clone, Debug, PartialEq, Eq)]
pub struct Sweep {
    /// Routes first-first, first-second (falling), second-first,
    /// second-second (rising). No mark if the node distance is beyond.
    pub routes: [Option<Mark>; 4],
    /// On one leg only: the offsets below own less threshold, and those not
    /// above own plus threshold (both rising).
    pub window: Option<[Mark; 2]>,
    /// For each report of the first leg, how many others of the second leg
    /// are in reach.
    pub reached: Vec<u32>,
}

/// A mark that runs over rising gaps and counts those within reach.
#[derive(Clone, Copy)]
struct Cursor {
    position: usize,
    moves: u64,
}

impl Cursor {
    /// A rising mark rests at 0.
    fn rising() -> Cursor {
        Cursor { position: 0, moves: 0 }
    }

    /// A falling mark rests at the second leg's number of reports.
    fn falling(all: usize) -> Cursor {
        Cursor { position: all, moves: 0 }
    }

    #[inline]
    fn rise(&mut self, gaps: &[u32], reach: i64) {
        while self.position < gaps.len() && i64::from(gaps[self.position]) <= reach {
            self.position += 1;
            self.moves += 1;
        }
    }

    #[inline]
    fn fall(&mut self, gaps: &[u32], reach: i64) {
        while self.position > 0 && i64::from(gaps[self.position - 1]) > reach {
            self.position -= 1;
            self.moves += 1;
        }
    }
}

/// What a sweep goes over.
struct LegPair<'a> {
    one_offsets: &'a [u32],
    one_length: i64,
    /// The second leg's gaps to its first and second end, each rising.
    two_first_gaps: &'a [u32],
    two_second_gaps: &'a [u32],
    ends: [Option<u32>; 4],
    same: bool,
}

/// Go through the first leg's reports by rising offset. `told` gets the four
/// positions, the two window positions (0 on two legs) and the number reached.
/// A route with no mark is carried along at 0 (its moves are thrown away).
#[inline]
fn run_sweep(pair: &LegPair, threshold: i64, mut told: impl FnMut([u32; 4], [u32; 2], u32)) -> ([u64; 4], [u64; 2]) {
    let all = pair.two_first_gaps.len();
    let [au, av, bu, bv] = pair.ends.map(walk);
    let mut marks = [Cursor::falling(all), Cursor::falling(all), Cursor::rising(), Cursor::rising()];
    let mut window = [Cursor::rising(), Cursor::rising()];
    for &x in pair.one_offsets {
        let x = i64::from(x);
        let rest = pair.one_length - x;
        marks[0].fall(pair.two_first_gaps, threshold - x - au);
        marks[1].fall(pair.two_second_gaps, threshold - x - av);
        marks[2].rise(pair.two_first_gaps, threshold - rest - bu);
        marks[3].rise(pair.two_second_gaps, threshold - rest - bv);
        let by_u = marks[0].position.max(marks[2].position) as u32;
        let by_v = marks[1].position.max(marks[3].position) as u32;
        let all = all as u32;
        let reached = if pair.same {
            // Below own less threshold: not above that less one.
            window[0].rise(pair.two_first_gaps, x - threshold - 1);
            window[1].rise(pair.two_first_gaps, x + threshold);
            joined(all, by_u, by_v, window[0].position as u32, window[1].position as u32) - 1
        } else {
            all.min(by_u + by_v)
        };
        told(marks.map(|m| m.position as u32), window.map(|m| m.position as u32), reached);
    }
    if pair.one_offsets.is_empty() {
        return ([0; 4], [0; 2]);
    }
    (marks.map(|m| m.moves), window.map(|m| m.moves))
}

fn leg_pair<'a>(network: &Network, table: &NodeTable, set: &'a LaidOut, one: u32, two: u32) -> LegPair<'a> {
    LegPair {
        one_offsets: set.first_gaps(one),
        one_length: length_of(network, one),
        two_first_gaps: set.first_gaps(two),
        two_second_gaps: set.second_gaps(two),
        ends: table.leg_ends(network, one, two),
        same: one == two,
    }
}

/// The marks of an ordered pair of legs at one threshold, with positions and
/// moves. The table's bound should be the greatest threshold.
pub fn sweep(
    network: &Network,
    table: &NodeTable,
    set: &LaidOut,
    one: u32,
    two: u32,
    threshold: u32,
) -> Result<Sweep, Refusal> {
    if network.leg(one).is_none() || network.leg(two).is_none() {
        return Err(Refusal { number: 13, place: 0 });
    }
    let pair = leg_pair(network, table, set, one, two);
    let mut positions: [Vec<u32>; 4] = Default::default();
    let mut window: [Vec<u32>; 2] = Default::default();
    let mut reached = Vec::new();
    let (moves, window_moves) = run_sweep(&pair, i64::from(threshold), |four, two, count| {
        for (list, position) in positions.iter_mut().zip(four) {
            list.push(position);
        }
        for (list, position) in window.iter_mut().zip(two) {
            list.push(position);
        }
        reached.push(count);
    });
    let mut routes: [Option<Mark>; 4] = Default::default();
    for (k, positions) in positions.into_iter().enumerate() {
        if pair.ends[k].is_some() {
            routes[k] = Some(Mark { positions, moves: moves[k] });
        }
    }
    let [low, high] = window;
    let window = pair.same.then_some([
        Mark { positions: low, moves: window_moves[0] },
        Mark { positions: high, moves: window_moves[1] },
    ]);
    Ok(Sweep { routes, window, reached })
}

/// For each unordered pair of legs and each threshold,
/// unless no end of the one is in reach of an end of the other, one sweep over
/// the first leg's reports.
pub fn neighbour_sharing(network: &Network, table: &NodeTable, sets: &Sets, thresholds: &Thresholds) -> Counts {
    sets.all().iter().map(|set| neighbour_sharing_set(network, table, set, thresholds).0).collect()
}

/// As `neighbour_sharing`, with the moves of all marks of the swept pairs of
/// legs summed for each set and threshold.
pub fn neighbour_sharing_moves(
    network: &Network,
    table: &NodeTable,
    sets: &Sets,
    thresholds: &Thresholds,
) -> (Counts, Counts) {
    sets.all().iter().map(|set| neighbour_sharing_set(network, table, set, thresholds)).unzip()
}

fn neighbour_sharing_set(
    network: &Network,
    table: &NodeTable,
    set: &LaidOut,
    thresholds: &Thresholds,
) -> (Vec<u64>, Vec<u64>) {
    let mut row = vec![0u64; thresholds.values().len()];
    let mut moved = vec![0u64; thresholds.values().len()];
    for (rank, &one) in set.occupied().iter().enumerate() {
        for &two in &set.occupied()[rank..] {
            let pair = leg_pair(network, table, set, one, two);
            let Some(nearest) = pair.ends.iter().flatten().min() else {
                continue;
            };
            for (k, &threshold) in thresholds.values().iter().enumerate() {
                if one != two && *nearest > threshold {
                    continue;
                }
                let mut count = 0;
                let (moves, window_moves) = run_sweep(&pair, i64::from(threshold), |_, _, reached| {
                    count += u64::from(reached);
                });
                // Two legs count once from either.
                row[k] += if one == two { count } else { 2 * count };
                for (end, moves) in pair.ends.iter().zip(moves) {
                    if end.is_some() {
                        moved[k] += moves;
                    }
                }
                moved[k] += window_moves.iter().sum::<u64>();
            }
        }
    }
    (row, moved)
}
