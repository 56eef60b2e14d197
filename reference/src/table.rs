//! The table of observed, least and greatest, and the whole program on bytes.

use crate::counts::{naive, Counts};
use crate::distance::NodeTable;
use crate::lists::Refusal;
use crate::model::{Network, Sets, Thresholds};
use crate::text::{parse_network, parse_reports, parse_thresholds};

/// The files, in the order they are read.
pub const FILES: [&str; 3] = ["network.gr", "reports.csv", "thresholds.csv"];

/// One row. With no comparison set there is no least and no greatest.
#[derive(Clone, Debug, PartialEq, Eq)]
pub struct Row {
    pub threshold: u32,
    pub observed: u64,
    pub least: Option<u64>,
    pub greatest: Option<u64>,
}

/// Rows from the counts of all sets.
pub fn rows(counts: &Counts, thresholds: &Thresholds) -> Vec<Row> {
    let cell = |set: &Vec<u64>, k: usize| set.get(k).copied().unwrap_or(0);
    let compared = counts.get(1..).unwrap_or(&[]);
    thresholds
        .values()
        .iter()
        .enumerate()
        .map(|(k, &threshold)| Row {
            threshold,
            observed: counts.first().map_or(0, |set| cell(set, k)),
            least: compared.iter().map(|set| cell(set, k)).min(),
            greatest: compared.iter().map(|set| cell(set, k)).max(),
        })
        .collect()
}

/// The printed table.
pub fn print(rows: &[Row]) -> String {
    let field = |value: Option<u64>| value.map_or(String::new(), |v| v.to_string());
    let mut out = String::from("threshold,observed,least,greatest\r\n");
    for row in rows {
        let (least, greatest) = (field(row.least), field(row.greatest));
        out.push_str(&format!("{},{},{},{}\r\n", row.threshold, row.observed, least, greatest));
    }
    out
}

/// The table of three texts, or the refused file with its refusal.
pub fn table(
    count: impl FnOnce(&Network, &Sets, &Thresholds) -> Result<Counts, Refusal>,
    network: &[u8],
    reports: &[u8],
    thresholds: &[u8],
) -> Result<Vec<Row>, (&'static str, Refusal)> {
    let at = |file: usize| move |refusal: Refusal| (FILES[file], refusal);
    let lists = parse_network(network).map_err(at(0))?;
    let network = Network::new(lists.nodes, &lists.firsts, &lists.seconds, &lists.lengths).map_err(at(0))?;
    let lists =
        parse_reports(reports, lists.nodes, &lists.firsts, &lists.seconds, &lists.lengths).map_err(at(1))?;
    let sets = Sets::new(&network, &lists.sets, &lists.legs, &lists.offsets).map_err(at(1))?;
    let values = parse_thresholds(thresholds).map_err(at(2))?;
    let thresholds = Thresholds::new(&values).map_err(at(2))?;
    let counts = count(&network, &sets, &thresholds).map_err(at(1))?;
    Ok(rows(&counts, &thresholds))
}

/// What is printed for three texts, counted from the definitions.
pub fn run(network: &[u8], reports: &[u8], thresholds: &[u8]) -> String {
    run_by(from_definitions, network, reports, thresholds)
}

/// Every pair at every threshold, over node distances found the naive way.
pub fn from_definitions(network: &Network, sets: &Sets, thresholds: &Thresholds) -> Result<Counts, Refusal> {
    naive(network, &NodeTable::naive(network), sets, thresholds)
}

/// What is printed for three texts, counted in some way.
pub fn run_by(
    count: impl FnOnce(&Network, &Sets, &Thresholds) -> Result<Counts, Refusal>,
    network: &[u8],
    reports: &[u8],
    thresholds: &[u8],
) -> String {
    match table(count, network, reports, thresholds) {
        Ok(rows) => print(&rows),
        Err((file, refusal)) => format!("refused,{},{},{}\r\n", file, refusal.number, refusal.place),
    }
}
