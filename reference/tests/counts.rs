//! All methods against the naive count, and the stored numbers and marks.

mod common;

use common::*;
use reference::counts::{self, by, Mark, Method};
use reference::distance::NodeTable;
use reference::lists::MAX_LENGTH;
use reference::model::{Network, Sets, Thresholds};
use reference::random::{self, Rng};
use reference::tuned;

struct Case {
    network: Network,
    sets: Sets,
    thresholds: Thresholds,
}

fn case(rng: &mut Rng) -> Case {
    let max_length = rng.pick(&[1, 3, 8, 20], 8);
    let input = random::network(rng, 7, 8, max_length);
    let (count, per_set, on_legs) = (rng.between(1, 4), rng.index(10), rng.index(4));
    let reports = random::reports(rng, &input, count, per_set, on_legs);
    let network = made(&input);
    let sets = sets_of(&network, &reports);
    let thresholds = thresholds_of(&random::thresholds(rng, 7, 3 * max_length + 2));
    Case { network, sets, thresholds }
}

#[test]
fn methods_equal_the_naive_count() {
    let mut rng = Rng::new(21);
    let mut pairs = 0;
    for _ in 0..12_000 {
        let Case { network, sets, thresholds } = case(&mut rng);
        let expected = counts::naive(&network, &NodeTable::naive(&network), &sets, &thresholds).unwrap();
        for method in [Method::RangeQuery, Method::CountAugmentation, Method::NeighbourSharing] {
            assert_eq!(by(method, &network, &sets, &thresholds), expected, "{method:?} {network:?} {sets:?}");
        }
        pairs += expected.iter().flatten().sum::<u64>();
        // What is only timed has to be right as well.
        let tuned = tuned::by(Method::CountAugmentation, &network, &sets, &thresholds);
        assert_eq!(tuned, expected, "{network:?} {sets:?}");
        let by_choice = tuned::by(tuned::fastest(&sets, &thresholds), &network, &sets, &thresholds);
        assert_eq!(by_choice, expected);
    }
    assert!(pairs > 100_000);
}

#[test]
fn methods_agree_on_larger_inputs() {
    let mut rng = Rng::new(22);
    for (sets, per_set, on_legs) in [(1, 400, 0), (1, 400, 9), (32, 16, 0), (3, 100, 2)] {
        let input = random::ring_with_loops(&mut rng, 60, 120, 12, 1_000);
        let network = made(&input);
        let sets = sets_of(&network, &random::reports(&mut rng, &input, sets, per_set, on_legs));
        let thresholds = thresholds_of(&random::even_thresholds(64, 5_000));
        let expected = counts::naive(&network, &NodeTable::new(&network), &sets, &thresholds).unwrap();
        for method in [Method::RangeQuery, Method::CountAugmentation, Method::NeighbourSharing] {
            assert_eq!(by(method, &network, &sets, &thresholds), expected, "{method:?}");
            assert_eq!(tuned::by(method, &network, &sets, &thresholds), expected, "{method:?}");
        }
    }
}

#[test]
fn stored_numbers_from_their_definition() {
    let mut rng = Rng::new(23);
    for _ in 0..3_000 {
        let Case { network, sets, .. } = case(&mut rng);
        for set in sets.all() {
            let stored = counts::augment(set);
            assert_eq!(tuned::augment(set), stored);
            assert_eq!((stored.near_first.len(), stored.near_second.len()), (set.len(), set.len()));
            for i in 0..set.len() {
                let leg = set.legs()[i];
                let length = network.lengths()[leg as usize - 1];
                let on_leg = || (0..set.len()).filter(|&j| set.legs()[j] == leg);
                let (own, other) = (set.offsets()[i], length - set.offsets()[i]);
                let near_first = on_leg().filter(|&j| set.offsets()[j] <= own).count();
                let near_second = on_leg().filter(|&j| length - set.offsets()[j] <= other).count();
                assert_eq!(stored.near_first[i] as usize, near_first);
                assert_eq!(stored.near_second[i] as usize, near_second);
            }
        }
    }
}

/// Moves from the positions, and one way only.
fn check_mark(mark: &Mark, falling: bool, all: usize, reports: usize) {
    assert_eq!(mark.positions.len(), reports);
    let mut at = if falling { all as u32 } else { 0 };
    let mut moves = 0;
    for &position in &mark.positions {
        assert!(if falling { position <= at } else { position >= at });
        assert!(position as usize <= all);
        moves += u64::from(position.abs_diff(at));
        at = position;
    }
    assert_eq!(mark.moves, moves);
    assert!(mark.moves <= all as u64);
}

#[test]
fn marks_from_their_definition() {
    let mut rng = Rng::new(24);
    let (mut no_mark, mut marks) = (0, 0);
    for _ in 0..1_500 {
        let Case { network, sets, thresholds } = case(&mut rng);
        let greatest = thresholds.greatest();
        let table = NodeTable::bounded(&network, greatest);
        let whole = NodeTable::naive(&network);
        let (sums, moved) = counts::neighbour_sharing_moves(&network, &table, &sets, &thresholds);
        for (s, set) in sets.all().iter().enumerate() {
            for (k, &threshold) in thresholds.values().iter().enumerate() {
                let (mut sum, mut all_moves) = (0u64, 0u64);
                for one in 1..=network.legs() as u32 {
                    for two in 1..=network.legs() as u32 {
                        let sweep = counts::sweep(&network, &table, set, one, two, threshold).unwrap();
                        let (a, b, one_length) = network.leg(one).unwrap();
                        let (u, v, two_length) = network.leg(two).unwrap();
                        let (xs, ys) = (set.first_gaps(one), set.first_gaps(two));
                        // The method sweeps each unordered pair once, and only
                        // where an end of the one is in reach of one of the other.
                        let near = [(a, u), (a, v), (b, u), (b, v)];
                        let in_reach = near.iter().any(|&(p, q)| whole.get(p, q).is_some_and(|d| d <= threshold));
                        let swept = one == two || one < two && in_reach && !xs.is_empty() && !ys.is_empty();
                        let routes = [(true, a, true, u), (true, a, false, v), (false, b, true, u), (false, b, false, v)];
                        for (route, mark) in routes.iter().zip(&sweep.routes) {
                            let &(by_first, from, to_first, to) = route;
                            let distance = whole.get(from, to).filter(|&d| d <= greatest);
                            assert_eq!(mark.is_some(), distance.is_some());
                            let (Some(mark), Some(distance)) = (mark, distance) else {
                                no_mark += 1;
                                continue;
                            };
                            marks += 1;
                            check_mark(mark, by_first, ys.len(), xs.len());
                            if swept {
                                all_moves += mark.moves;
                            }
                            for (&x, &position) in xs.iter().zip(&mark.positions) {
                                let gap = if by_first { x } else { one_length - x };
                                let reaches = |&&y: &&u32| {
                                    let other = if to_first { y } else { two_length - y };
                                    u64::from(gap) + u64::from(distance) + u64::from(other) <= u64::from(threshold)
                                };
                                assert_eq!(position as usize, ys.iter().filter(reaches).count());
                            }
                        }
                        assert_eq!(sweep.window.is_some(), one == two);
                        if let Some([low, high]) = &sweep.window {
                            check_mark(low, false, ys.len(), xs.len());
                            check_mark(high, false, ys.len(), xs.len());
                            all_moves += low.moves + high.moves;
                            for (i, &x) in xs.iter().enumerate() {
                                let (x, t) = (i64::from(x), i64::from(threshold));
                                let below = ys.iter().filter(|&&y| i64::from(y) < x - t).count();
                                let upto = ys.iter().filter(|&&y| i64::from(y) <= x + t).count();
                                assert_eq!((low.positions[i] as usize, high.positions[i] as usize), (below, upto));
                            }
                        }
                        sum += sweep.reached.iter().map(|&r| u64::from(r)).sum::<u64>();
                    }
                }
                assert_eq!(sums[s][k], sum);
                assert_eq!(moved[s][k], all_moves);
            }
        }
        assert!(counts::sweep(&network, &table, &sets.all()[0], 0, 1, 1).is_err());
        assert!(counts::sweep(&network, &table, &sets.all()[0], 1, network.legs() as u32 + 1, 1).is_err());
    }
    assert!(no_mark > 1_000 && marks > 1_000);
}

#[test]
fn equal_places_and_few_reports() {
    let network = full_run_network();
    let thresholds = Thresholds::new(&[0]).unwrap();
    for count in 0..5u64 {
        let sets = Sets::new(&network, &vec![0; count as usize], &vec![4; count as usize], &vec![3; count as usize]);
        let sets = sets.unwrap();
        for method in [Method::RangeQuery, Method::CountAugmentation, Method::NeighbourSharing] {
            assert_eq!(by(method, &network, &sets, &thresholds), vec![vec![count * count.saturating_sub(1)]]);
        }
    }
    // One node named by three legs.
    let sets = Sets::new(&network, &[0, 0, 0], &[2, 3, 4], &[4, 0, 0]).unwrap();
    for method in [Method::RangeQuery, Method::CountAugmentation, Method::NeighbourSharing] {
        assert_eq!(by(method, &network, &sets, &thresholds), vec![vec![6]]);
    }
}

/// The networks that every comparison draws have loops of every kind.
#[test]
fn drawn_networks_have_loops() {
    const KINDS: [&str; 7] =
        ["any", "two at a node", "at a node of legs side by side", "with reports inside", "of 1 m", "of 1,000,000 m", "of a single node"];
    let mut rng = Rng::new(25);
    let mut seen = [0u32; KINDS.len()];
    for _ in 0..4_000 {
        let max_length = rng.pick(&[1, 9, MAX_LENGTH], 9);
        let input = random::network(&mut rng, 8, 11, max_length);
        let reports = random::reports(&mut rng, &input, 1, 12, 1);
        let legs: Vec<(u32, u32)> = input.firsts.iter().zip(&input.seconds).map(|(&u, &v)| (u.min(v), u.max(v))).collect();
        let loops: Vec<usize> = (0..legs.len()).filter(|&k| legs[k].0 == legs[k].1).collect();
        let twice = |k: usize| legs.iter().filter(|&&leg| leg == legs[k]).count() > 1;
        let beside = |node: u32| (0..legs.len()).any(|k| !loops.contains(&k) && twice(k) && (legs[k].0 == node || legs[k].1 == node));
        let kinds = [
            !loops.is_empty(),
            loops.iter().any(|&k| twice(k)),
            loops.iter().any(|&k| beside(legs[k].0)),
            loops.contains(&0) && reports.offsets.iter().filter(|&&x| x > 0 && x < input.lengths[0]).count() > 5,
            loops.iter().any(|&k| input.lengths[k] == 1),
            loops.iter().any(|&k| input.lengths[k] == MAX_LENGTH),
            input.nodes == 1,
        ];
        for (count, met) in seen.iter_mut().zip(kinds) {
            *count += u32::from(met);
        }
    }
    for (kind, count) in KINDS.iter().zip(seen) {
        assert!(count > 100, "loops {kind}: {count}");
    }
}
