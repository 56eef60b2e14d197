//! The proved counting methods against the plain ones, on random inputs, good
//! and damaged.

#[path = "inputs.rs"]
#[allow(dead_code)]
mod inputs;
#[path = "library.rs"]
#[allow(dead_code)]
mod library;

use inputs::{answer_list, made, network, Met};
use reference::calls;
use reference::counts::{self, Method};
use reference::distance::NodeTable;
use reference::lists::{Refusal, MAX_LEGS, MAX_LENGTH, MAX_NODES, MAX_REPORTS, MAX_SET, MAX_THRESHOLDS};
use reference::model::{Sets, Thresholds};
use reference::random::{self, NetworkInput, ReportInput, Rng, Spread};

type Proved = fn(&NetworkInput, &ReportInput, &[u32], &mut [u32]) -> Result<(), Refusal>;

/// Each proved method with its plain counterpart.
const METHODS: [(Proved, Method); 3] = [
    (library::range_counts, Method::RangeQuery),
    (library::augmentation_counts, Method::CountAugmentation),
    (library::sharing_counts, Method::NeighbourSharing),
];

/// What a counting method takes.
#[derive(Clone, Debug)]
struct Case {
    network: NetworkInput,
    reports: ReportInput,
    thresholds: Vec<u32>,
    answers: Vec<u32>,
}

impl Case {
    /// Both implementations on copies of one answer list, which they must leave
    /// alike: counts and old surplus, or all of it unchanged.
    fn compare(&self, proved: Proved, plain: Method) -> Result<Vec<u32>, Refusal> {
        let (mut told_list, mut expected_list) = (self.answers.clone(), self.answers.clone());
        let told = proved(&self.network, &self.reports, &self.thresholds, &mut told_list);
        let expected =
            calls::counts(counts::by, plain, &self.network, &self.reports, &self.thresholds, &mut expected_list);
        assert_eq!(told, expected, "{plain:?} {self:?}");
        assert_eq!(told_list, expected_list, "{plain:?} {self:?}");
        told.map(|()| told_list)
    }

    /// The counts from the definition, for good and small inputs.
    fn naive(&self) -> Vec<u32> {
        let network = made(&self.network);
        let sets = Sets::new(&network, &self.reports.sets, &self.reports.legs, &self.reports.offsets).expect("good sets");
        let thresholds = Thresholds::new(&self.thresholds).expect("good thresholds");
        let rows = counts::naive(&network, &NodeTable::naive(&network), &sets, &thresholds).expect("counts");
        rows.into_iter().flatten().map(|count| count as u32).collect()
    }
}

/// Small, with several sets on few legs or many; damaged in the parts that are
/// named by bits.
fn case(rng: &mut Rng, damaged: u64) -> Case {
    let mut network = network(rng, false);
    let longest = network.lengths.iter().copied().max().unwrap_or(1);
    let (sets, per_set, on_legs) = (rng.between(1, 5), rng.index(9), rng.index(4));
    let mut reports = random::reports(rng, &network, sets, per_set, on_legs);
    let mut thresholds = random::thresholds(rng, 9, longest.saturating_mul(3).saturating_add(2));
    if damaged & 1 != 0 {
        random::damage_network(rng, &mut network);
    }
    if damaged & 2 != 0 {
        random::damage_reports(rng, &mut reports);
    }
    if damaged & 4 != 0 {
        random::damage_thresholds(rng, &mut thresholds);
    }
    // A set number near the greatest number asks for more than there is room.
    let wanted = calls::counts_wanted(&reports.sets, &thresholds).min(4_000);
    let answers = answer_list(rng, wanted);
    Case { network, reports, thresholds, answers }
}

/// 0 is no refusal.
const REFUSALS: [u32; 12] = [0, 2, 6, 7, 9, 12, 13, 14, 15, 16, 18, 19];

#[test]
fn good_and_damaged_lists() {
    for (proved, plain) in METHODS {
        let mut rng = Rng::new(201);
        let mut met = Met::default();
        let (mut pairs, mut accepted) = (0u64, 0);
        for turn in 0..16_000 {
            // Half of them good; of the others mostly one part is damaged.
            let damaged = if turn % 2 == 0 { 0 } else { rng.pick(&[1, 2, 2, 4, 6, 7], 1) };
            let case = case(&mut rng, damaged);
            let told = case.compare(proved, plain);
            met.note(&told);
            // A damaged list may have come out good and long.
            if let (Ok(list), true) = (told, case.reports.sets.len() < 100) {
                let naive = case.naive();
                assert_eq!(list[..naive.len()], naive, "{plain:?} {case:?}");
                pairs += naive.iter().map(|&count| u64::from(count)).sum::<u64>();
                accepted += 1;
            }
        }
        met.all(&REFUSALS);
        assert!(pairs > 100_000 && accepted > 6_000, "{plain:?}: {pairs} pairs, {accepted} accepted");
    }
}

#[test]
fn one_fault_at_a_time() {
    // Each refusal by itself, just past its limit, and next to it the limit.
    for (proved, plain) in METHODS {
        let mut rng = Rng::new(202);
        for _ in 0..300 {
            let good = loop {
                let case = case(&mut rng, 0);
                if !case.reports.sets.is_empty() && case.answers.len() >= calls::counts_wanted(&case.reports.sets, &case.thresholds) {
                    break case;
                }
            };
            assert!(good.compare(proved, plain).is_ok());
            let legs = good.network.lengths.len();
            let (leg, at) = (rng.index(legs), rng.index(good.reports.sets.len()));
            // No fault: a leg that leads back to its own node.
            let mut looped = good.clone();
            looped.network.firsts[leg] = looped.network.seconds[leg];
            let told = looped.compare(proved, plain).expect("counts");
            let naive = looped.naive();
            assert_eq!(told[..naive.len()], naive, "{plain:?} {looped:?}");
            let refused = |number: u32, place: usize, change: &dyn Fn(&mut Case)| {
                let mut bad = good.clone();
                change(&mut bad);
                let told = bad.compare(proved, plain);
                assert_eq!(told, Err(Refusal { number, place: place as u64 }), "{bad:?}");
            };
            refused(2, 0, &|c| {
                c.network.firsts.pop();
            });
            refused(2, 0, &|c| c.network.seconds.push(1));
            refused(2, 0, &|c| {
                c.reports.sets.pop();
            });
            refused(2, 0, &|c| c.reports.legs.push(1));
            refused(2, 0, &|c| {
                c.reports.offsets.pop();
            });
            refused(2, 0, &|c| c.answers.truncate(calls::counts_wanted(&c.reports.sets, &c.thresholds) - 1));
            refused(6, 0, &|c| c.network.nodes = 0);
            refused(6, 0, &|c| c.network.nodes = MAX_NODES + 1);
            refused(7, leg, &|c| c.network.firsts[leg] = 0);
            refused(7, leg, &|c| c.network.seconds[leg] = c.network.nodes + 1);
            refused(9, leg, &|c| c.network.lengths[leg] = 0);
            refused(9, leg, &|c| c.network.lengths[leg] = MAX_LENGTH + 1);
            refused(12, at, &|c| {
                c.reports.sets[at] = MAX_SET + 1;
                c.answers.resize(33 * c.thresholds.len(), 9);
            });
            refused(13, at, &|c| c.reports.legs[at] = 0);
            refused(13, at, &|c| c.reports.legs[at] = legs as u32 + 1);
            refused(14, at, &|c| c.reports.offsets[at] = c.network.lengths[c.reports.legs[at] as usize - 1] + 1);
            let sets = good.reports.sets.iter().max().map_or(1, |&set| set as usize + 1);
            // A report two sets on: the set between is empty.
            refused(16, sets, &|c| {
                c.reports.sets.push(sets as u32 + 1);
                c.reports.legs.push(1);
                c.reports.offsets.push(0);
                c.answers.resize((sets + 2) * c.thresholds.len(), 9);
            });
            refused(18, 0, &|c| c.thresholds.clear());
            refused(19, 1, &|c| {
                c.thresholds.insert(1, c.thresholds[0]);
                c.answers.resize(6 * c.thresholds.len(), 9);
            });
        }
    }
}

#[test]
fn at_the_limits() {
    for (proved, plain) in METHODS {
        let mut rng = Rng::new(203);
        for (sets, per_set, on_legs, count, spread) in [
            (1, MAX_REPORTS, 0, MAX_THRESHOLDS, Spread::Even),
            (1, MAX_REPORTS, 0, MAX_THRESHOLDS, Spread::Far),
            (1, MAX_REPORTS, 9, MAX_THRESHOLDS, Spread::Even),
            (1, MAX_REPORTS, 9, MAX_THRESHOLDS, Spread::Short),
            (1, MAX_REPORTS, 100, 2, Spread::Even),
            (1, MAX_REPORTS, 1, 1, Spread::Short),
            (MAX_SET + 1, MAX_REPORTS / 32, 0, MAX_THRESHOLDS, Spread::Even),
            (MAX_SET + 1, MAX_REPORTS / 32, 9, 5, Spread::Far),
        ] {
            let network = random::ring_with_loops(&mut rng, MAX_NODES, MAX_LEGS, 64, 1_000);
            let reports = random::reports(&mut rng, &network, sets, per_set, on_legs);
            assert_eq!(reports.sets.len(), MAX_REPORTS);
            let thresholds = spread.thresholds(count, 1_000);
            let answers = vec![7; calls::counts_wanted(&reports.sets, &thresholds) + 3];
            let good = Case { network, reports, thresholds, answers };
            assert!(good.compare(proved, plain).is_ok());

            let mut bad = good.clone();
            bad.reports.sets.push(0);
            bad.reports.legs.push(1);
            bad.reports.offsets.push(0);
            assert_eq!(bad.compare(proved, plain), Err(Refusal { number: 15, place: MAX_REPORTS as u64 }));

            let mut bad = good.clone();
            bad.network.firsts.push(1);
            bad.network.seconds.push(2);
            bad.network.lengths.push(1);
            assert_eq!(bad.compare(proved, plain), Err(Refusal { number: 6, place: 0 }));

            let mut bad = good.clone();
            bad.thresholds = (0..=MAX_THRESHOLDS as u32).collect();
            bad.answers.resize(calls::counts_wanted(&bad.reports.sets, &bad.thresholds), 7);
            assert_eq!(bad.compare(proved, plain), Err(Refusal { number: 18, place: MAX_THRESHOLDS as u64 }));
        }
    }
}

#[test]
fn thresholds_of_every_spread() {
    for (proved, plain) in METHODS {
        let mut rng = Rng::new(204);
        for _ in 0..3_000 {
            let mut case = case(&mut rng, 0);
            let longest = case.network.lengths.iter().copied().max().unwrap_or(1);
            case.thresholds = random::uneven_thresholds(&mut rng, longest.saturating_mul(3));
            case.answers = vec![9; calls::counts_wanted(&case.reports.sets, &case.thresholds)];
            let told = case.compare(proved, plain).expect("counts");
            assert_eq!(told, case.naive(), "{plain:?} {case:?}");
        }
    }
}

#[test]
fn longest_legs_and_the_greatest_threshold() {
    // A path of all nodes with legs of 1,000,000 m, and a part of its own: the
    // greatest threshold admits every pair of the path and none across.
    for (proved, plain) in METHODS {
        let path = MAX_NODES as usize - 3;
        let mut network = NetworkInput {
            nodes: MAX_NODES,
            firsts: (1..=path as u32).collect(),
            seconds: (2..=path as u32 + 1).collect(),
            lengths: vec![MAX_LENGTH; path],
        };
        network.firsts.push(MAX_NODES);
        network.seconds.push(MAX_NODES - 1);
        network.lengths.push(MAX_LENGTH);
        let mut reports = ReportInput { sets: Vec::new(), legs: Vec::new(), offsets: Vec::new() };
        for leg in 1..=path as u32 + 1 {
            reports.sets.push(0);
            reports.legs.push(leg);
            reports.offsets.push(if leg == 1 { 0 } else { MAX_LENGTH });
        }
        let whole = (path as u32 - 1) * MAX_LENGTH + MAX_LENGTH;
        let thresholds = vec![0, MAX_LENGTH, whole - 1, whole, u32::MAX];
        let case = Case { network, reports, thresholds, answers: vec![9; 6] };
        let told = case.compare(proved, plain).expect("counts");
        let (n, below) = (path as u32, path as u32 * (path as u32 - 1));
        assert_eq!(told, [0, 2 * (n - 2), below - 2, below, below, 9], "{plain:?}");
    }
}

#[test]
fn the_full_run() {
    let network = NetworkInput {
        nodes: 4,
        firsts: vec![1, 2, 3, 3],
        seconds: vec![2, 3, 1, 4],
        lengths: vec![5, 4, 3, 6],
    };
    let reports = ReportInput {
        sets: vec![0, 0, 0, 0, 1, 1, 1, 1, 2, 2, 2, 2],
        legs: vec![1, 2, 4, 1, 1, 3, 4, 2, 4, 4, 4, 4],
        offsets: vec![1, 3, 2, 4, 0, 3, 6, 0, 3, 3, 3, 3],
    };
    let case = Case { network, reports, thresholds: vec![2, 3, 5, 7], answers: vec![99; 13] };
    for (proved, plain) in METHODS {
        let told = case.compare(proved, plain);
        assert_eq!(told, Ok(vec![0, 4, 8, 12, 2, 2, 6, 6, 12, 12, 12, 12, 99]), "{plain:?}");
    }
}
