//! Checks of lists.

mod common;

use reference::lists::*;
use reference::model::{LaidOut, Network};
use reference::random::{self, Rng};

fn refused<T>(number: u32, place: u64) -> Result<T, Refusal> {
    Err(Refusal { number, place })
}

#[test]
fn network_lists() {
    let ok = |nodes, firsts: &[u32], seconds: &[u32], lengths: &[u32]| check_network(nodes, firsts, seconds, lengths);
    assert_eq!(ok(2, &[1], &[2], &[1]), Ok(()));
    assert_eq!(ok(512, &[1], &[512], &[1_000_000]), Ok(()));
    // Loops: a network of one node, and two at one node of several.
    assert_eq!(ok(1, &[1], &[1], &[1]), Ok(()));
    assert_eq!(ok(2, &[2, 1, 2], &[2, 2, 2], &[1_000_000, 1, 1]), Ok(()));
    assert_eq!(ok(1, &[1, 2], &[1, 2], &[0, 1]), refused(7, 1));
    assert_eq!(ok(0, &[1, 1], &[1], &[0]), refused(2, 0));
    assert_eq!(ok(513, &[1], &[2], &[1]), refused(6, 0));
    assert_eq!(ok(0, &[1], &[2], &[1]), refused(6, 0));
    assert_eq!(ok(2, &[], &[], &[]), refused(6, 0));
    assert_eq!(ok(2, &[1; 1_024], &[2; 1_024], &[1; 1_024]), Ok(()));
    assert_eq!(ok(2, &[1; 1_025], &[2; 1_025], &[1; 1_025]), refused(6, 0));
    // The lowest number decides, though its place is higher.
    assert_eq!(ok(2, &[1, 1, 3], &[1, 2, 2], &[0, 1, 1]), refused(7, 2));
    assert_eq!(ok(2, &[1, 1, 1], &[2, 2, 0], &[0, 1, 1]), refused(7, 2));
    assert_eq!(ok(2, &[1, 2, 1], &[2, 2, 2], &[1, 1, 0]), refused(9, 2));
    assert_eq!(ok(2, &[1, 2, 1], &[2, 1, 2], &[1, 1_000_001, 0]), refused(9, 1));
}

#[test]
fn lone_numbers() {
    assert_eq!(check_network_nodes(2, &[1], &[2], &[1], &[1, 2]), Ok(()));
    assert_eq!(check_network_nodes(2, &[1, 1], &[2, 3], &[1, 1], &[1]), refused(7, 1));
    assert_eq!(check_network_nodes(2, &[1, 1], &[2, 3], &[1, 1], &[1, 0]), refused(7, 0));
    assert_eq!(check_network_nodes(2, &[1, 1], &[2, 2], &[1], &[0]), refused(2, 0));
    assert_eq!(check_network_nodes(0, &[1], &[2], &[1], &[0]), refused(6, 0));
    assert_eq!(check_network_nodes(2, &[1, 2], &[2, 2], &[1, 1], &[3]), refused(7, 0));
    assert_eq!(check_network_locations(2, &[1], &[2], &[5], &[(1, 0), (1, 5)]), Ok(()));
    assert_eq!(check_network_locations(2, &[1], &[2], &[5], &[(1, 6), (2, 0)]), refused(13, 0));
    assert_eq!(check_network_locations(2, &[1], &[2], &[5], &[(1, 6), (1, 0)]), refused(14, 0));
    assert_eq!(check_network_locations(2, &[1], &[2], &[0], &[(0, 6)]), refused(9, 0));
}

#[test]
fn report_lists() {
    let check = |sets: &[u32], legs: &[u32], offsets: &[u32]| {
        check_reports(2, &[1, 1], &[2, 2], &[5, 9], sets, legs, offsets)
    };
    assert_eq!(check(&[], &[], &[]), Ok(()));
    assert_eq!(check(&[0], &[1], &[5]), Ok(()));
    assert_eq!(check(&[0], &[1], &[]), refused(2, 0));
    assert_eq!(check(&[], &[1], &[5]), refused(2, 0));
    assert_eq!(check(&[0, 31, 32], &[0, 1, 1], &[5, 6, 1]), refused(12, 2));
    assert_eq!(check(&[0, 1, 2], &[1, 1, 3], &[6, 6, 1]), refused(13, 2));
    assert_eq!(check(&[0, 1, 2], &[1, 1, 0], &[6, 6, 1]), refused(13, 2));
    assert_eq!(check(&[0, 1, 3], &[2, 1, 1], &[6, 6, 1]), refused(14, 1));
    assert_eq!(check(&[0, 1, 3], &[2, 1, 1], &[6, 5, 1]), refused(16, 2));
    assert_eq!(check(&[1], &[1], &[1]), refused(16, 1));
    let many = |count: usize, value: u32| vec![value; count];
    assert_eq!(check(&many(8_192, 0), &many(8_192, 1), &many(8_192, 5)), Ok(()));
    assert_eq!(check(&many(8_193, 0), &many(8_193, 1), &many(8_193, 5)), refused(15, 8_192));
    assert_eq!(check(&many(8_193, 1), &many(8_193, 1), &many(8_193, 5)), refused(15, 8_192));
    // A lower number beyond the limit still comes first.
    let mut offsets = many(9_000, 5);
    offsets[8_999] = 6;
    assert_eq!(check(&many(9_000, 0), &many(9_000, 1), &offsets), refused(14, 8_999));
    // The same network faults come before all of these.
    assert_eq!(check_reports(2, &[1, 1], &[2, 1], &[5, 0], &[40], &[9], &[9]), refused(9, 1));
    // But not before lists of different lengths.
    assert_eq!(check_reports(2, &[1, 1], &[2, 1], &[5, 0], &[40], &[9], &[9, 9]), refused(2, 0));
}

#[test]
fn laid_out_lists() {
    let check = |legs: &[u32], offsets: &[u32]| check_laid_out(2, &[1, 1], &[2, 2], &[5, 9], legs, offsets);
    assert_eq!(check(&[], &[]), Ok(()));
    assert_eq!(check(&[1, 1, 1, 2], &[0, 3, 3, 0]), Ok(()));
    assert_eq!(check(&[1, 1, 2, 1], &[3, 2, 0, 0]), refused(17, 1));
    assert_eq!(check(&[1, 2, 1], &[3, 4, 3]), refused(17, 2));
    assert_eq!(check(&[1, 1, 3], &[3, 2, 4]), refused(13, 2));
}

#[test]
fn threshold_lists() {
    assert_eq!(check_thresholds(&[]), refused(18, 0));
    assert_eq!(check_thresholds(&[0]), Ok(()));
    assert_eq!(check_thresholds(&[0, u32::MAX]), Ok(()));
    assert_eq!(check_thresholds(&[0, 0]), refused(19, 1));
    assert_eq!(check_thresholds(&[3, 4, 2, 1]), refused(19, 2));
    assert_eq!(check_thresholds(&(0..64).collect::<Vec<_>>()), Ok(()));
    assert_eq!(check_thresholds(&vec![0; 65]), refused(18, 64));
    assert_eq!(check_thresholds(&vec![0; 100]), refused(18, 64));
}

#[test]
fn answers_too_short() {
    let mut faults = Faults::new();
    faults.network(0, &[1], &[2], &[1]);
    faults.answer(3, 2);
    assert_eq!(faults.result(), refused(2, 0));
}

#[test]
fn laying_out_and_stretches() {
    let mut rng = Rng::new(5);
    for _ in 0..2_000 {
        let input = random::network(&mut rng, 6, 6, 6);
        let per_set = rng.index(12);
        let reports = random::reports(&mut rng, &input, 1, per_set, 0);
        let (legs, offsets) = lay_out(&reports.legs, &reports.offsets);
        let check = check_laid_out(input.nodes, &input.firsts, &input.seconds, &input.lengths, &legs, &offsets);
        assert_eq!(check, Ok(()));
        let sorted = |legs: &[u32], offsets: &[u32]| {
            let mut list: Vec<(u32, u32)> = legs.iter().copied().zip(offsets.iter().copied()).collect();
            list.sort_unstable();
            list
        };
        assert_eq!(sorted(&legs, &offsets), sorted(&reports.legs, &reports.offsets));
        let network = Network::new(input.nodes, &input.firsts, &input.seconds, &input.lengths).unwrap();
        let laid = LaidOut::new(&network, &reports.legs, &reports.offsets).unwrap();
        for leg in 0..=input.lengths.len() as u32 + 1 {
            let (part, told) =
                stretch(input.nodes, &input.firsts, &input.seconds, &input.lengths, &legs, &offsets, leg);
            let mut own: Vec<u32> =
                (0..reports.legs.len()).filter(|&k| reports.legs[k] == leg).map(|k| reports.offsets[k]).collect();
            own.sort_unstable();
            assert_eq!(part, &own[..]);
            assert_eq!(laid.first_gaps(leg), &own[..]);
            let there = leg >= 1 && leg as usize <= input.lengths.len();
            assert_eq!(told, if there { Ok(()) } else { refused(13, 0) });
        }
    }
}

/// A second, slow reading of the order: number by number, place by place.
fn slow_reports(
    nodes: u32,
    firsts: &[u32],
    seconds: &[u32],
    lengths: &[u32],
    sets: &[u32],
    legs: &[u32],
    offsets: &[u32],
) -> Result<(), Refusal> {
    let same = firsts.len() == seconds.len() && seconds.len() == lengths.len();
    if !same || sets.len() != legs.len() || legs.len() != offsets.len() {
        return refused(2, 0);
    }
    if !(1..=512).contains(&nodes) || !(1..=1_024).contains(&firsts.len()) {
        return refused(6, 0);
    }
    let count = firsts.len();
    let bad = |node: u32| !(1..=nodes).contains(&node);
    if let Some(k) = (0..count).find(|&k| bad(firsts[k]) || bad(seconds[k])) {
        return refused(7, k as u64);
    }
    if let Some(k) = (0..count).find(|&k| !(1..=1_000_000).contains(&lengths[k])) {
        return refused(9, k as u64);
    }
    let reports = sets.len();
    if let Some(k) = (0..reports).find(|&k| sets[k] > 31) {
        return refused(12, k as u64);
    }
    if let Some(k) = (0..reports).find(|&k| legs[k] == 0 || legs[k] as usize > count) {
        return refused(13, k as u64);
    }
    if let Some(k) = (0..reports).find(|&k| offsets[k] > lengths[legs[k] as usize - 1]) {
        return refused(14, k as u64);
    }
    if reports > 8_192 {
        return refused(15, 8_192);
    }
    let size = |set: u32| sets.iter().filter(|&&s| s == set).count();
    let greatest = sets.iter().copied().max().unwrap_or(0);
    if let Some(set) = (1..=greatest).find(|&set| size(set) != size(0)) {
        return refused(16, u64::from(set));
    }
    Ok(())
}

#[test]
fn damaged_lists_have_one_reading() {
    let mut rng = Rng::new(6);
    let mut seen = [0u32; 20];
    for _ in 0..20_000 {
        let mut net = random::network(&mut rng, 6, 6, 9);
        let (sets, per_set) = (rng.between(1, 4), rng.index(5));
        let mut reports = random::reports(&mut rng, &net, sets, per_set, 0);
        if rng.once_in(3) {
            random::damage_network(&mut rng, &mut net);
        }
        if rng.once_in(2) {
            random::damage_reports(&mut rng, &mut reports);
        }
        let (n, f, s, l) = (net.nodes, &net.firsts, &net.seconds, &net.lengths);
        let told = check_reports(n, f, s, l, &reports.sets, &reports.legs, &reports.offsets);
        assert_eq!(told, slow_reports(n, f, s, l, &reports.sets, &reports.legs, &reports.offsets));
        seen[told.err().map_or(0, |refusal| refusal.number as usize)] += 1;
    }
    for number in [0, 2, 6, 7, 9, 12, 13, 14, 15, 16] {
        assert!(seen[number] > 0, "no case met {number}: {seen:?}");
    }
}

#[test]
fn damaged_thresholds_have_one_reading() {
    let mut rng = Rng::new(7);
    for _ in 0..5_000 {
        let mut values = random::thresholds(&mut rng, 70, 300);
        if rng.once_in(2) {
            random::damage_thresholds(&mut rng, &mut values);
        }
        let expected = if values.is_empty() {
            refused(18, 0)
        } else if values.len() > 64 {
            refused(18, 64)
        } else {
            match (1..values.len()).find(|&k| values[k] <= values[k - 1]) {
                Some(k) => refused(19, k as u64),
                None => Ok(()),
            }
        };
        assert_eq!(check_thresholds(&values), expected);
    }
}
