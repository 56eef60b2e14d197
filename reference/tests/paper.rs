//! The paper's own cases: the full run, P1 to P10, and the 'run only' ones; and
//! the cases of a turning basin, a leg from a node to itself.

mod common;

use common::*;
use reference::counts::{self, by, Method};
use reference::distance::{location_distance, perimeter_closed, perimeter_naive, Adjacency, Location, NodeTable};
use reference::lists::Refusal;
use reference::model::{Network, Sets, Thresholds};
use reference::table::run;
use reference::text::{parse_network, parse_reports, parse_thresholds};

const METHODS: [Method; 3] = [Method::RangeQuery, Method::CountAugmentation, Method::NeighbourSharing];

#[test]
fn full_run_byte_for_byte() {
    assert_eq!(run(FULL_NETWORK, FULL_REPORTS, FULL_THRESHOLDS), FULL_OUTPUT);
    // The last line of each may lack its end.
    let cut = |text: &[u8], by: usize| text[..text.len() - by].to_vec();
    assert_eq!(run(&cut(FULL_NETWORK, 1), &cut(FULL_REPORTS, 2), &cut(FULL_THRESHOLDS, 2)), FULL_OUTPUT);
}

#[test]
fn p1_to_p4_by_every_method() {
    let network = full_run_network();
    let lists = parse_reports(FULL_REPORTS, 4, network.firsts(), network.seconds(), network.lengths()).unwrap();
    let sets = Sets::new(&network, &lists.sets, &lists.legs, &lists.offsets).unwrap();
    let thresholds = Thresholds::new(&[2, 3, 5, 7]).unwrap();
    let expected = vec![vec![0, 4, 8, 12], vec![2, 2, 6, 6], vec![12, 12, 12, 12]];
    for method in METHODS {
        assert_eq!(by(method, &network, &sets, &thresholds), expected, "{method:?}");
    }
    let naive = counts::naive(&network, &NodeTable::naive(&network), &sets, &thresholds).unwrap();
    assert_eq!(naive, expected);
}

#[test]
fn p5_to_p9_perimeters() {
    let network = full_run_network();
    let table = NodeTable::new(&network);
    let adjacency = Adjacency::new(&network);
    let centre = Location { leg: 1, offset: 1 };
    for (radius, count) in [(0, 1), (4, 2), (5, 3), (6, 2), (11, 0)] {
        assert_eq!(perimeter_naive(&network, &table, centre, radius), Ok(count), "radius {radius}");
        assert_eq!(perimeter_closed(&network, &adjacency, centre, radius), Ok(count), "radius {radius}");
    }
}

#[test]
fn p10_the_way_round() {
    let network = Network::new(2, &[1, 1], &[2, 2], &[12, 2]).unwrap();
    let table = NodeTable::new(&network);
    let (a, b) = (Location { leg: 1, offset: 1 }, Location { leg: 1, offset: 11 });
    assert_eq!(location_distance(&network, &table, a, b), Ok(Some(4)));
    let sets = Sets::new(&network, &[0, 0], &[1, 1], &[1, 11]).unwrap();
    let thresholds = Thresholds::new(&[3, 4, 9, 10]).unwrap();
    for method in METHODS {
        assert_eq!(by(method, &network, &sets, &thresholds), vec![vec![0, 2, 2, 2]], "{method:?}");
    }
}

/// Leg 1 from node 1 to itself, 10 m; leg 2 from node 1 to node 2, 4 m.
#[test]
fn turning_basin() {
    let network = Network::new(2, &[1, 1], &[1, 2], &[10, 4]).unwrap();
    let (table, adjacency) = (NodeTable::new(&network), Adjacency::new(&network));
    let on = |leg: u32, offset: u32| Location { leg, offset };
    for (a, b, metres) in [
        (on(1, 2), on(1, 9), 3),
        (on(1, 0), on(1, 10), 0),
        (on(1, 3), on(2, 2), 5),
        (on(1, 9), on(2, 2), 3),
    ] {
        assert_eq!(location_distance(&network, &table, a, b), Ok(Some(metres)), "{a:?} {b:?}");
        assert_eq!(location_distance(&network, &table, b, a), Ok(Some(metres)), "{b:?} {a:?}");
    }
    for (offset, radius, count) in [(3, 0, 1), (3, 5, 2), (10, 4, 3), (10, 5, 1)] {
        let centre = on(1, offset);
        assert_eq!(perimeter_naive(&network, &table, centre, radius), Ok(count), "offset {offset}, radius {radius}");
        assert_eq!(perimeter_closed(&network, &adjacency, centre, radius), Ok(count), "offset {offset}, radius {radius}");
    }
    let sets = Sets::new(&network, &[0, 0, 0], &[1, 1, 1], &[0, 5, 10]).unwrap();
    let thresholds = Thresholds::new(&[0, 4, 5]).unwrap();
    for method in METHODS {
        assert_eq!(by(method, &network, &sets, &thresholds), vec![vec![2, 2, 6]], "{method:?}");
    }
}

#[test]
fn lengths_at_the_limit() {
    let text = |length: u32| format!("p sp 2 2\na 1 2 {length}\na 2 1 {length}\n").into_bytes();
    assert!(parse_network(&text(1_000_000)).is_ok());
    assert_eq!(parse_network(&text(1_000_001)), Err(Refusal { number: 9, place: 2 }));
}

#[test]
fn thresholds_at_the_limit() {
    let text = |count: u32| {
        let rows: String = (1..=count).map(|k| format!("{k}\r\n")).collect();
        format!("threshold\r\n{rows}").into_bytes()
    };
    assert_eq!(parse_thresholds(&text(64)).map(|list| list.len()), Ok(64));
    assert_eq!(parse_thresholds(&text(65)), Err(Refusal { number: 18, place: 66 }));
}

#[test]
fn greatest_threshold_over_two_parts() {
    let network = b"p sp 4 4\na 1 2 5\na 2 1 5\na 3 4 5\na 4 3 5\n";
    let reports = b"set,leg,offset\r\n0,1,2\r\n0,2,2\r\n0,1,3\r\n";
    let thresholds = b"threshold\r\n4294967295\r\n";
    let expected = "threshold,observed,least,greatest\r\n4294967295,2,,\r\n";
    assert_eq!(run(network, reports, thresholds), expected);
}

#[test]
fn empty_texts() {
    assert_eq!(run(b"", b"", b""), "refused,network.gr,5,1\r\n");
    assert_eq!(run(FULL_NETWORK, b"", b""), "refused,reports.csv,4,1\r\n");
    assert_eq!(run(FULL_NETWORK, FULL_REPORTS, b""), "refused,thresholds.csv,4,1\r\n");
    assert_eq!(run(FULL_NETWORK, b"set,leg,offset", b"threshold"), "refused,thresholds.csv,18,2\r\n");
    let expected = "threshold,observed,least,greatest\r\n0,0,,\r\n";
    assert_eq!(run(FULL_NETWORK, b"set,leg,offset", b"threshold\r\n0"), expected);
}

#[test]
fn unlike_sets_name_the_report_file() {
    let reports = b"set,leg,offset\r\n0,1,1\r\n2,1,1\r\n";
    assert_eq!(run(FULL_NETWORK, reports, FULL_THRESHOLDS), "refused,reports.csv,16,1\r\n");
}
