//! Stored numbers, and positions and moves of the marks, of the proved library
//! against the plain ones, on random laid-out sets, good and damaged.

#[path = "inputs.rs"]
#[allow(dead_code)]
mod inputs;
#[path = "library.rs"]
#[allow(dead_code)]
mod library;

use inputs::{answer_list, network, one_of, Met};
use reference::calls;
use reference::lists::{lay_out, Refusal, MAX_LEGS, MAX_LENGTH, MAX_NODES, MAX_REPORTS};
use reference::random::{self, NetworkInput, Rng};

/// A laid-out set over a network.
#[derive(Clone, Debug)]
struct Laid {
    network: NetworkInput,
    legs: Vec<u32>,
    offsets: Vec<u32>,
}

/// Small; damaged in its network, in its reports or in their order.
fn laid(rng: &mut Rng, damaged: bool) -> Laid {
    let mut network = network(rng, false);
    let (count, on_legs) = (rng.index(14), rng.index(4));
    let reports = random::reports(rng, &network, 1, count, on_legs);
    let (mut legs, mut offsets) = lay_out(&reports.legs, &reports.offsets);
    if damaged {
        match rng.below(4) {
            0 => random::damage_network(rng, &mut network),
            1 => random::damage_list(rng, &mut legs),
            2 => random::damage_list(rng, &mut offsets),
            _ if rng.once_in(40) => {
                legs.resize(MAX_REPORTS + rng.index(2), network.lengths.len() as u32);
                offsets.resize(legs.len(), 0);
            }
            _ => {
                let (one, other) = (rng.index(legs.len()), rng.index(legs.len()));
                if one < legs.len() {
                    legs.swap(one, other);
                    offsets.swap(one, other);
                }
            }
        }
    }
    Laid { network, legs, offsets }
}

/// What a function over a laid-out set asks besides.
type Asked = (u32, u32, u32, u32);

/// A function with two answer lists, and how many entries it writes to each.
struct Function {
    proved: fn(&Laid, Asked, &mut [u32], &mut [u32]) -> Result<(), Refusal>,
    plain: fn(&Laid, Asked, &mut [u32], &mut [u32]) -> Result<(), Refusal>,
    wanted: fn(&Laid, Asked) -> (usize, usize),
    refusals: &'static [u32],
}

const FUNCTIONS: [Function; 2] = [
    // Stored numbers: by the first end, and by the second.
    Function {
        proved: |l, _, first, second| library::augment(&l.network, &l.legs, &l.offsets, first, second),
        plain: |l, _, first, second| calls::augment(&l.network, &l.legs, &l.offsets, first, second),
        wanted: |l, _| (l.legs.len(), l.legs.len()),
        refusals: &[0, 2, 6, 7, 9, 13, 14, 15, 17],
    },
    // Positions and moves.
    Function {
        proved: |l, (one, two, t, b), p, m| library::cursors(&l.network, &l.legs, &l.offsets, (one, two), t, b, p, m),
        plain: |l, (one, two, t, b), p, m| calls::cursors(&l.network, &l.legs, &l.offsets, (one, two), t, b, p, m),
        wanted: |l, (one, ..)| (6 * l.legs.iter().zip(&l.offsets).filter(|pair| *pair.0 == one).count(), 6),
        refusals: &[0, 2, 6, 7, 9, 13, 14, 15, 17],
    },
];

impl Function {
    /// Both on copies of the same answer lists, which they must leave alike.
    fn compare(&self, laid: &Laid, asked: Asked, lists: [Vec<u32>; 2]) -> Result<[Vec<u32>; 2], Refusal> {
        let (mut told_lists, mut expected_lists) = (lists.clone(), lists);
        let [a, b] = &mut told_lists;
        let told = (self.proved)(laid, asked, a, b);
        let [a, b] = &mut expected_lists;
        let expected = (self.plain)(laid, asked, a, b);
        assert_eq!(told, expected, "{laid:?} {asked:?}");
        assert_eq!(told_lists, expected_lists, "{laid:?} {asked:?}");
        told.map(|()| told_lists)
    }
}

fn asked(rng: &mut Rng, network: &NetworkInput) -> Asked {
    let legs = network.lengths.len() as u32;
    let longest = network.lengths.iter().copied().max().unwrap_or(1);
    let number = |rng: &mut Rng| match rng.below(6) {
        0 => rng.pick(&[0, 1, u32::MAX - 1, u32::MAX], 0),
        _ => rng.between(0, longest.saturating_mul(3)),
    };
    let one = one_of(rng, legs);
    let two = if rng.once_in(3) { one } else { one_of(rng, legs) };
    let threshold = number(rng);
    // The greatest threshold is the bound of the counts; here it is free.
    let bound = if rng.once_in(2) { threshold } else { number(rng) };
    (one, two, threshold, bound)
}

#[test]
fn good_and_damaged_sets() {
    for function in FUNCTIONS {
        let mut rng = Rng::new(401);
        let mut met = Met::default();
        let (mut entries, mut not_zero) = (0, 0);
        for turn in 0..40_000 {
            let laid = laid(&mut rng, turn % 2 == 1);
            let asked = asked(&mut rng, &laid.network);
            let (first, second) = (function.wanted)(&laid, asked);
            let lists = [answer_list(&mut rng, first), answer_list(&mut rng, second)];
            let told = function.compare(&laid, asked, lists);
            met.note(&told);
            if let Ok([a, _]) = told {
                entries += first;
                not_zero += a[..first].iter().filter(|&&entry| entry > 1).count();
            }
        }
        met.all(function.refusals);
        assert!(entries > 50_000 && not_zero > 10_000, "{entries} entries, {not_zero} above 1");
    }
}

#[test]
fn at_the_limits() {
    for function in FUNCTIONS {
        let mut rng = Rng::new(402);
        for on_legs in [1, 2, 0] {
            let network = random::ring_with_loops(&mut rng, MAX_NODES, MAX_LEGS, 64, MAX_LENGTH);
            let reports = random::reports(&mut rng, &network, 1, MAX_REPORTS, on_legs);
            let (legs, offsets) = lay_out(&reports.legs, &reports.offsets);
            let laid = Laid { network, legs, offsets };
            for (one, two) in [(1, 1), (1, 2), (2, 1), (MAX_LEGS as u32, 1)] {
                for threshold in [0, MAX_LENGTH / 2, 2 * MAX_LENGTH, u32::MAX] {
                    let asked = (one, two, threshold, threshold);
                    let (first, second) = (function.wanted)(&laid, asked);
                    let told = function.compare(&laid, asked, [vec![7; first + 2], vec![8; second + 1]]);
                    assert!(told.is_ok());
                }
            }
        }
    }
}
