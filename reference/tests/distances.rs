//! Distances and perimeters, each against another way.

mod common;

use common::*;
use reference::distance::*;
use reference::lists::Refusal;
use reference::random::{self, Rng};

#[test]
fn node_distances_agree() {
    let mut rng = Rng::new(11);
    let mut none = 0;
    for round in 0..3_000 {
        let (nodes, legs) = if round % 100 == 0 { (60, 120) } else { (7, 9) };
        let network = made(&random::network(&mut rng, nodes, legs, 9));
        let adjacency = Adjacency::new(&network);
        let table = NodeTable::new(&network);
        assert_eq!(table, NodeTable::naive(&network));
        let bound = rng.between(0, 20);
        let bounded = NodeTable::bounded(&network, bound);
        for source in 1..=network.nodes() {
            let row = from_source(&adjacency, source).unwrap();
            assert_eq!(row, from_source_naive(&network, source).unwrap());
            let near = from_source_bounded(&adjacency, source, bound).unwrap();
            for node in 1..=network.nodes() {
                let distance = row[node as usize - 1];
                none += u32::from(distance.is_none());
                assert_eq!(distance, table.get(source, node));
                assert_eq!(near[node as usize - 1], distance.filter(|&d| d <= bound));
                assert_eq!(bounded.get(source, node), distance.filter(|&d| d <= bound));
            }
        }
        let beyond = Refusal { number: 7, place: 0 };
        for source in [0, network.nodes() + 1] {
            assert_eq!(from_source(&adjacency, source), Err(beyond));
            assert_eq!(from_source_bounded(&adjacency, source, bound), Err(beyond));
            assert_eq!(from_source_naive(&network, source), Err(beyond));
            assert_eq!(table.get(source, 1), None);
        }
    }
    assert!(none > 0);
}

#[test]
fn longest_distances_fit() {
    let firsts: Vec<u32> = (1..512).collect();
    let seconds: Vec<u32> = (2..513).collect();
    let network = reference::model::Network::new(512, &firsts, &seconds, &vec![1_000_000; 511]).unwrap();
    let table = NodeTable::new(&network);
    assert_eq!(table.get(1, 512), Some(511_000_000));
    assert_eq!(NodeTable::bounded(&network, u32::MAX), table);
    let (a, b) = (Location { leg: 1, offset: 1 }, Location { leg: 511, offset: 999_999 });
    assert_eq!(location_distance(&network, &table, a, b), Ok(Some(510_999_998)));
}

#[test]
fn locations_and_perimeters_metre_by_metre() {
    let mut rng = Rng::new(12);
    for _ in 0..1_500 {
        let network = made(&random::network(&mut rng, 6, 7, 7));
        let table = NodeTable::new(&network);
        let adjacency = Adjacency::new(&network);
        for leg in 1..=network.legs() as u32 {
            for offset in 0..=network.lengths()[leg as usize - 1] {
                let centre = Location { leg, offset };
                let found = metre_by_metre(&network, centre);
                for other in 1..=network.legs() as u32 {
                    for at in 0..=network.lengths()[other as usize - 1] {
                        let there = Location { leg: other, offset: at };
                        let expected = found.get(&place(&network, there).unwrap()).copied();
                        assert_eq!(location_distance(&network, &table, centre, there), Ok(expected));
                    }
                }
                let farthest = found.values().copied().max().unwrap_or(0);
                for radius in (0..=farthest + 2).chain([u32::MAX]) {
                    let expected = found.values().filter(|&&d| d == radius).count() as u32;
                    assert_eq!(perimeter_naive(&network, &table, centre, radius), Ok(expected));
                    assert_eq!(perimeter_closed(&network, &adjacency, centre, radius), Ok(expected));
                }
            }
        }
    }
}

#[test]
fn bad_locations_are_told() {
    let network = full_run_network();
    let (table, adjacency) = (NodeTable::new(&network), Adjacency::new(&network));
    let good = Location { leg: 1, offset: 1 };
    for (leg, offset, number) in [(0, 0, 13), (5, 0, 13), (u32::MAX, u32::MAX, 13), (1, 6, 14)] {
        let bad = Location { leg, offset };
        let refusal = Refusal { number, place: 0 };
        assert_eq!(location_distance(&network, &table, bad, good), Err(refusal));
        assert_eq!(location_distance(&network, &table, good, bad), Err(refusal));
        assert_eq!(perimeter_naive(&network, &table, bad, 1), Err(refusal));
        assert_eq!(perimeter_closed(&network, &adjacency, bad, 1), Err(refusal));
    }
}
