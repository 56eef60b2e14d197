//! The example folder: made by its generator, and counted by every method.

use std::fs;
use std::path::{Path, PathBuf};
use std::process::Command;

use reference::counts::{self, by, Method};
use reference::distance::NodeTable;
use reference::model::{Network, Sets, Thresholds};
use reference::table::{print, rows, run, FILES};
use reference::text::{parse_network, parse_reports, parse_thresholds};

fn examples() -> PathBuf {
    Path::new(env!("CARGO_MANIFEST_DIR")).join("../examples")
}

fn text(folder: &Path, name: &str) -> Vec<u8> {
    fs::read(folder.join(name)).unwrap_or_else(|error| panic!("{name}: {error}"))
}

#[test]
fn the_generator_makes_it() {
    let made = Path::new(env!("CARGO_TARGET_TMPDIR")).join("estuary");
    let status = Command::new(env!("CARGO_BIN_EXE_estuary")).arg(&made).status().expect("it runs");
    assert!(status.success());
    for name in FILES.into_iter().chain(["expected.csv"]) {
        assert!(text(&made, name) == text(&examples(), name), "{name}: made anew it has other bytes");
    }
}

#[test]
fn every_method_gives_the_expected_table() {
    let [network, reports, thresholds] = FILES.map(|name| text(&examples(), name));
    let expected = String::from_utf8(text(&examples(), "expected.csv")).expect("text");
    assert_eq!(run(&network, &reports, &thresholds), expected);

    let lists = parse_network(&network).expect("a network");
    let network = Network::new(lists.nodes, &lists.firsts, &lists.seconds, &lists.lengths).expect("a network");
    let lists = parse_reports(&reports, lists.nodes, &lists.firsts, &lists.seconds, &lists.lengths).expect("reports");
    let sets = Sets::new(&network, &lists.sets, &lists.legs, &lists.offsets).expect("reports");
    let thresholds = Thresholds::new(&parse_thresholds(&thresholds).expect("thresholds")).expect("thresholds");
    let naive = counts::naive(&network, &NodeTable::naive(&network), &sets, &thresholds).expect("counts");
    assert_eq!(print(&rows(&naive, &thresholds)), expected);
    for method in [Method::RangeQuery, Method::CountAugmentation, Method::NeighbourSharing] {
        assert_eq!(by(method, &network, &sets, &thresholds), naive, "{method:?}");
    }
}
