//! The proved library against this implementation, on random inputs, good and
//! damaged: lists laid out, distances, perimeter counts and the readers.

#[path = "inputs.rs"]
#[allow(dead_code)]
mod inputs;
#[path = "library.rs"]
#[allow(dead_code)]
mod library;

use inputs::{answer_list, filled, made, network, one_of, Met};

use reference::distance::{
    from_source_bounded, location_distance, perimeter_closed, perimeter_naive, Adjacency, Location, NodeTable,
};
use reference::lists::{
    check_network_locations, check_network_nodes, lay_out, Faults, MAX_LENGTH, MAX_LEGS, MAX_NODES, MAX_REPORTS,
};
use reference::random::{self, NetworkInput, Rng};
use reference::text;

fn location(rng: &mut Rng, input: &NetworkInput) -> (u32, u32) {
    let leg = one_of(rng, input.lengths.len() as u32);
    let length = (leg as usize).checked_sub(1).and_then(|k| input.lengths.get(k)).copied().unwrap_or(3);
    let offset = match rng.below(10) {
        0 => 0,
        1 => length,
        2 => length.saturating_add(1),
        3 => random::near_limit(rng),
        _ => rng.between(0, length),
    };
    (leg, offset)
}

fn bound(rng: &mut Rng, input: &NetworkInput) -> u32 {
    let some = input.lengths.first().copied().unwrap_or(1);
    let far = some.saturating_mul(3);
    let between = rng.between(0, far);
    rng.pick(&[0, 1, some, between, u32::MAX - 1, u32::MAX], 0)
}

fn code(distance: Option<u32>) -> u32 {
    distance.map_or(0, |metres| metres + 1)
}

#[test]
fn laid_out_lists() {
    let mut rng = Rng::new(101);
    let mut met = Met::default();
    for turn in 0..6_000 {
        let count = if turn % 300 == 0 { MAX_REPORTS - 2 + rng.index(5) } else { rng.index(40) };
        let wide = rng.once_in(3);
        let value = |rng: &mut Rng| if wide { random::near_limit(rng) } else { rng.between(0, 9) };
        let mut legs: Vec<u32> = (0..count).map(|_| value(&mut rng)).collect();
        let mut offsets: Vec<u32> = (0..count).map(|_| value(&mut rng)).collect();
        if rng.once_in(8) {
            legs.pop();
        }
        if rng.once_in(8) {
            offsets.push(5);
        }
        let mut faults = Faults::new();
        if legs.len() != offsets.len() {
            faults.add(2, 0);
        }
        if legs.len() > MAX_REPORTS {
            faults.add(15, MAX_REPORTS as u64);
        }
        let expected = faults.result();
        let lists = match expected {
            Ok(()) => lay_out(&legs, &offsets),
            Err(_) => (legs.clone(), offsets.clone()),
        };
        let told = library::lay_out(&mut legs, &mut offsets);
        assert_eq!(told, expected);
        assert_eq!((legs, offsets), lists);
        met.note(&told);
    }
    met.all(&[0, 2, 15]);
}

#[test]
fn rows_of_distances() {
    let mut rng = Rng::new(102);
    let mut met = Met::default();
    for turn in 0..12_000 {
        let input = network(&mut rng, turn % 2 == 1);
        let source = one_of(&mut rng, input.nodes);
        let bound = bound(&mut rng, &input);
        // A damaged number of nodes may be in the billions.
        let mut answers = answer_list(&mut rng, input.nodes.min(2 * MAX_NODES) as usize);
        let old = answers.clone();
        let mut faults = Faults::new();
        faults.network(input.nodes, &input.firsts, &input.seconds, &input.lengths);
        faults.node(input.nodes, source);
        faults.answer(input.nodes as usize, answers.len());
        let expected = faults.result();
        let told = library::distances_from(&input, source, bound, &mut answers);
        assert_eq!(told, expected, "{input:?} from {source}");
        let row = match expected {
            Err(_) => Vec::new(),
            Ok(()) => {
                let adjacency = Adjacency::new(&made(&input));
                let row = from_source_bounded(&adjacency, source, bound).expect("a row");
                row.into_iter().map(code).collect()
            }
        };
        assert_eq!(answers, filled(&row, &old), "{input:?} from {source} within {bound}");
        met.note(&told);
    }
    met.all(&[0, 2, 6, 7, 9]);
}

#[test]
fn node_distances() {
    let mut rng = Rng::new(103);
    let mut met = Met::default();
    for turn in 0..12_000 {
        let input = network(&mut rng, turn % 3 == 1);
        let (u, v) = (one_of(&mut rng, input.nodes), one_of(&mut rng, input.nodes));
        let bound = bound(&mut rng, &input);
        let expected =
            check_network_nodes(input.nodes, &input.firsts, &input.seconds, &input.lengths, &[u, v]).map(|()| {
                let network = made(&input);
                (NodeTable::new(&network).get(u, v), NodeTable::bounded(&network, bound).get(u, v))
            });
        let told = library::node_distance(&input, u, v);
        assert_eq!(told, expected.map(|found| found.0), "{input:?} from {u} to {v}");
        let told_bounded = library::bounded_node_distance(&input, bound, u, v);
        assert_eq!(told_bounded, expected.map(|found| found.1), "{input:?} from {u} to {v} within {bound}");
        met.note(&told);
    }
    met.all(&[0, 2, 6, 7, 9]);
}

#[test]
fn location_distances() {
    let mut rng = Rng::new(104);
    let mut met = Met::default();
    for turn in 0..12_000 {
        let input = network(&mut rng, turn % 3 == 1);
        let one = location(&mut rng, &input);
        let mut other = location(&mut rng, &input);
        if rng.once_in(4) {
            other.0 = one.0;
        }
        let lone = [one, other];
        let expected =
            check_network_locations(input.nodes, &input.firsts, &input.seconds, &input.lengths, &lone).map(|()| {
                let network = made(&input);
                let [a, b] = lone.map(|(leg, offset)| Location { leg, offset });
                location_distance(&network, &NodeTable::new(&network), a, b).expect("a distance")
            });
        let told = library::location_distance(&input, one, other);
        assert_eq!(told, expected, "{input:?} from {one:?} to {other:?}");
        met.note(&told);
    }
    met.all(&[0, 2, 6, 7, 9, 13, 14]);
}

#[test]
fn perimeter_counts() {
    let mut rng = Rng::new(105);
    let mut met = Met::default();
    for turn in 0..12_000 {
        let input = network(&mut rng, turn % 3 == 1);
        let centre = location(&mut rng, &input);
        let radius = bound(&mut rng, &input);
        let expected =
            check_network_locations(input.nodes, &input.firsts, &input.seconds, &input.lengths, &[centre]).map(|()| {
                let network = made(&input);
                let at = Location { leg: centre.0, offset: centre.1 };
                let closed = perimeter_closed(&network, &Adjacency::new(&network), at, radius).expect("a count");
                // Every place is tried where they are few.
                if input.lengths.iter().all(|&length| length <= 40) {
                    assert_eq!(perimeter_naive(&network, &NodeTable::new(&network), at, radius), Ok(closed));
                }
                closed
            });
        let told = library::perimeter_count(&input, centre, radius);
        assert_eq!(told, expected, "{input:?} around {centre:?} at {radius}");
        met.note(&told);
    }
    met.all(&[0, 2, 6, 7, 9, 13, 14]);
}

#[test]
fn networks_at_the_limits() {
    let mut rng = Rng::new(106);
    for turn in 0..6 {
        let mut input = random::ring_with_loops(&mut rng, MAX_NODES, MAX_LEGS, 64, MAX_LENGTH);
        if turn == 0 {
            // A path of all nodes, the longest distance there is, and a loop at
            // each of its ends.
            input.firsts = (1..=MAX_NODES).chain([1]).collect();
            input.seconds = (2..=MAX_NODES).chain([MAX_NODES, 1]).collect();
            input.lengths = vec![MAX_LENGTH; MAX_NODES as usize + 1];
        }
        let network = made(&input);
        let adjacency = Adjacency::new(&network);
        let table = NodeTable::new(&network);
        let legs = input.lengths.len() as u32;
        for source in [1, MAX_NODES, rng.between(1, MAX_NODES)] {
            for bound in [0, MAX_LENGTH, 200 * MAX_LENGTH, u32::MAX] {
                let mut answers = vec![7; MAX_NODES as usize + 1];
                assert_eq!(library::distances_from(&input, source, bound, &mut answers), Ok(()));
                let row = from_source_bounded(&adjacency, source, bound).expect("a row");
                let row: Vec<u32> = row.into_iter().map(code).collect();
                assert_eq!(answers, filled(&row, &[7; MAX_NODES as usize + 1]));
            }
            for target in [1, 2, MAX_NODES, rng.between(1, MAX_NODES)] {
                assert_eq!(library::node_distance(&input, source, target), Ok(table.get(source, target)));
            }
        }
        for _ in 0..40 {
            let [one, other] = [0; 2].map(|_| {
                let leg = rng.between(1, legs);
                (leg, rng.between(0, input.lengths[leg as usize - 1]))
            });
            let [a, b] = [one, other].map(|(leg, offset)| Location { leg, offset });
            assert_eq!(library::location_distance(&input, one, other), location_distance(&network, &table, a, b));
            let radius = rng.between(0, 20 * MAX_LENGTH);
            let expected = perimeter_closed(&network, &adjacency, a, radius);
            assert_eq!(library::perimeter_count(&input, one, radius), expected);
        }
    }
}

/// Damaged by bytes, by lines, or not at all.
fn damaged_text(rng: &mut Rng, text: Vec<u8>, csv: bool) -> Vec<u8> {
    match rng.below(3) {
        0 => random::damage_bytes(rng, &text),
        1 => random::damage_lines(rng, &text, csv),
        _ => text,
    }
}

#[test]
fn threshold_texts() {
    let mut rng = Rng::new(107);
    let mut met = Met::default();
    for turn in 0..20_000 {
        let mut values = random::thresholds(&mut rng, 64, 5_000);
        if rng.once_in(4) {
            random::damage_thresholds(&mut rng, &mut values);
        }
        let written = random::thresholds_text(&mut rng, &values);
        let mut text = damaged_text(&mut rng, written, true);
        if turn % 500 == 0 {
            let size = random::size_near_limit(&mut rng);
            text.resize(size, b'1');
        }
        let mut list = answer_list(&mut rng, values.len());
        let mut expected_list = list.clone();
        let expected = text::read_thresholds(&text, &mut expected_list);
        let told = library::read_thresholds(&text, &mut list);
        assert_eq!(told, expected, "{:?}", String::from_utf8_lossy(&text));
        assert_eq!(list, expected_list, "{:?}", String::from_utf8_lossy(&text));
        met.note(&told);
    }
    met.all(&[0, 1, 2, 3, 4, 18, 19]);
}

#[test]
fn report_texts() {
    let mut rng = Rng::new(108);
    let mut met = Met::default();
    for turn in 0..20_000 {
        let mut input = network(&mut rng, false);
        let (sets, per_set) = (rng.between(1, 5), rng.index(7));
        let mut reports = random::reports(&mut rng, &input, sets, per_set, 0);
        if rng.once_in(4) {
            random::damage_reports(&mut rng, &mut reports);
        }
        if rng.once_in(8) {
            random::damage_network(&mut rng, &mut input);
        }
        let written = random::reports_text(&mut rng, &reports);
        let mut text = damaged_text(&mut rng, written, true);
        if turn % 200 == 0 {
            let size = random::size_near_limit(&mut rng);
            text = random::long_reports(&mut rng, 9, size);
        }
        let wanted = text::csv_lines(&text).len().saturating_sub(1);
        let mut lists = [0; 3].map(|_| answer_list(&mut rng, wanted));
        let mut expected_lists = lists.clone();
        let [a, b, c] = &mut expected_lists;
        let expected = text::read_reports(&text, input.nodes, &input.firsts, &input.seconds, &input.lengths, a, b, c);
        let [a, b, c] = &mut lists;
        let told = library::read_events(&text, &input, a, b, c);
        assert_eq!(told, expected.map(|read| read.0), "{input:?} {:?}", String::from_utf8_lossy(&text));
        assert_eq!(lists, expected_lists, "{input:?} {:?}", String::from_utf8_lossy(&text));
        met.note(&told);
    }
    met.all(&[0, 1, 2, 3, 4, 6, 7, 9, 12, 13, 14, 15, 16]);
}

#[test]
fn network_texts() {
    let mut rng = Rng::new(109);
    let mut met = Met::default();
    for turn in 0..20_000 {
        let mut input = network(&mut rng, false);
        if rng.once_in(4) {
            random::damage_network(&mut rng, &mut input);
        }
        let written = random::network_text(&mut rng, &input);
        let mut text = damaged_text(&mut rng, written, false);
        if turn % 200 == 0 {
            let size = random::size_near_limit(&mut rng);
            text = random::stretch_gr(&text, size);
        }
        let wanted = input.lengths.len();
        let mut lists: Vec<Vec<u32>> = (0..3).map(|_| answer_list(&mut rng, wanted)).collect();
        let mut expected_lists = lists.clone();
        let [f, s, l] = &mut expected_lists[..] else { unreachable!() };
        let expected = text::read_network(&text, f, s, l);
        let [f, s, l] = &mut lists[..] else { unreachable!() };
        let told = library::read_network(&text, f, s, l);
        assert_eq!(told, expected, "{:?}", String::from_utf8_lossy(&text));
        assert_eq!(lists, expected_lists, "{:?}", String::from_utf8_lossy(&text));
        met.note(&told);
    }
    met.all(&[0, 1, 2, 3, 5, 6, 7, 9, 10, 11]);
}

#[test]
fn tables_of_wanted_rows() {
    let mut rng = Rng::new(110);
    let mut met = Met::default();
    for _ in 0..4_000 {
        let damaged = rng.once_in(3);
        let input = network(&mut rng, damaged);
        let nodes = input.nodes.min(20) as usize;
        let bound = rng.pick(&[0, 3, 40, u32::MAX - 1, u32::MAX], 9);
        let wanted: Vec<u32> = (0..nodes).map(|_| u32::from(rng.once_in(2))).collect();
        let mut table = answer_list(&mut rng, nodes * nodes);
        let before = table.clone();
        let told = library::end_distances(&input, bound, &wanted, &mut table);
        met.note(&told);
        let mut expected = before.clone();
        if told.is_ok() {
            for (u, _) in wanted.iter().enumerate().filter(|(_, flag)| **flag != 0) {
                library::distances_from(&input, u as u32 + 1, bound, &mut expected[u * nodes..(u + 1) * nodes]).unwrap();
            }
        }
        assert_eq!(table, expected);
    }
    met.all(&[0, 2, 6, 7, 9]);
}
