//! Shared by the tests: what is handed over to them, the full run's network, and
//! a metre-by-metre oracle.

#![allow(dead_code)]

pub mod program;

use std::collections::{BTreeMap, VecDeque};
use std::path::PathBuf;

use reference::distance::{place, Location, Place};
use reference::model::{Network, Sets, Thresholds};
use reference::random::{NetworkInput, ReportInput};

/// The absolute path that a variable of the environment names: KC_LIB, the folder
/// of the proved library, or KC_PROGRAM, the proved program. Without it a test
/// has nothing to compare with: it says so and does nothing, and fails where the
/// variable CI is set.
pub fn handed_over(variable: &str) -> Option<PathBuf> {
    let Some(path) = std::env::var_os(variable).filter(|path| !path.is_empty()) else {
        assert!(std::env::var_os("CI").is_none(), "CI is set and {variable} is not: nothing is compared");
        println!("{variable} is not set: nothing is compared");
        return None;
    };
    // Programs are run in other folders.
    Some(std::fs::canonicalize(&path).unwrap_or_else(|error| panic!("{variable} {path:?}: {error}")))
}

pub fn made(input: &NetworkInput) -> Network {
    Network::new(input.nodes, &input.firsts, &input.seconds, &input.lengths).expect("a good network")
}

pub fn sets_of(network: &Network, input: &ReportInput) -> Sets {
    Sets::new(network, &input.sets, &input.legs, &input.offsets).expect("good reports")
}

pub fn thresholds_of(values: &[u32]) -> Thresholds {
    Thresholds::new(values).expect("good thresholds")
}

/// The network of the full run.
pub fn full_run_network() -> Network {
    Network::new(4, &[1, 2, 3, 3], &[2, 3, 1, 4], &[5, 4, 3, 6]).expect("a good network")
}

pub const FULL_NETWORK: &[u8] = b"c the full run\np sp 4 8\na 1 2 5\na 2 1 5\na 2 3 4\na 3 2 4\na 3 1 3\na 1 3 3\na 3 4 6\na 4 3 6\n";
pub const FULL_REPORTS: &[u8] = b"set,leg,offset\r\n0,1,1\r\n0,2,3\r\n0,4,2\r\n0,1,4\r\n1,1,0\r\n1,3,3\r\n1,4,6\r\n1,2,0\r\n2,4,3\r\n2,4,3\r\n2,4,3\r\n2,4,3\r\n";
pub const FULL_THRESHOLDS: &[u8] = b"threshold\r\n2\r\n3\r\n5\r\n7\r\n";
pub const FULL_OUTPUT: &str =
    "threshold,observed,least,greatest\r\n2,0,2,12\r\n3,4,2,12\r\n5,8,6,12\r\n7,12,6,12\r\n";

/// Every leg cut into metres; distances from one place by breadth-first
/// search. It knows nothing of ends, routes or node distances.
pub fn metre_by_metre(network: &Network, from: Location) -> BTreeMap<Place, u32> {
    let mut next: BTreeMap<Place, Vec<Place>> = BTreeMap::new();
    for leg in 1..=network.legs() as u32 {
        let length = network.lengths()[leg as usize - 1];
        for offset in 0..length {
            let a = place(network, Location { leg, offset }).expect("a place");
            let b = place(network, Location { leg, offset: offset + 1 }).expect("a place");
            next.entry(a).or_default().push(b);
            next.entry(b).or_default().push(a);
        }
    }
    let start = place(network, from).expect("a place");
    let mut found = BTreeMap::from([(start, 0)]);
    let mut queue = VecDeque::from([start]);
    while let Some(here) = queue.pop_front() {
        let distance = found[&here];
        for &there in next.get(&here).map_or(&[][..], |list| list) {
            found.entry(there).or_insert_with(|| {
                queue.push_back(there);
                distance + 1
            });
        }
    }
    found
}
