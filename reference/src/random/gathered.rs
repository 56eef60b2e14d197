//! Reports that gather on some of the legs.

use super::{reports_drawn, ring_network, NetworkInput, ReportInput, Rng, Spread};

/// Which legs have most of the reports.
#[derive(Clone, Copy, Debug, PartialEq, Eq)]
pub enum Gathering {
    /// Half of the reports are on the first 20 legs, which in a ring network
    /// lie one after the other, and the rest are spread over all legs.
    Half,
    /// A report is a hundred times as likely on every tenth leg as on any other.
    Tenths,
}

impl Gathering {
    pub fn name(self) -> &'static str {
        match self {
            Gathering::Half => "half on 20",
            Gathering::Tenths => "100 to 1 on every tenth",
        }
    }

    /// The index of a report's leg, of so many legs.
    fn index(self, rng: &mut Rng, legs: usize) -> usize {
        match self {
            Gathering::Half if rng.once_in(2) => rng.index(legs.min(20)),
            Gathering::Half => rng.index(legs),
            Gathering::Tenths => {
                let full = legs / 10;
                let at = rng.index(100 * full + (legs - full));
                match at.checked_sub(100 * full) {
                    None => at % full * 10 + 9,
                    // Nine others stand before each full leg.
                    Some(other) => other + other / 9,
                }
            }
        }
    }

    /// Good reports: `sets` sets of `per_set` each, mixed in order. Repeats are
    /// likely.
    pub fn reports(self, rng: &mut Rng, network: &NetworkInput, sets: u32, per_set: usize) -> ReportInput {
        reports_drawn(rng, network, sets, per_set, |rng, legs| self.index(rng, legs))
    }
}

/// An input to be timed, over a ring network with legs of up to `LONGEST`
/// metres. Its texts are within the limits.
#[derive(Clone, Copy, Debug)]
pub struct Gathered {
    pub name: &'static str,
    pub gathering: Gathering,
    pub sets: u32,
    pub per_set: usize,
    pub thresholds: usize,
    pub spread: Spread,
}

impl Gathered {
    pub const NODES: u32 = 512;
    pub const LEGS: usize = 1_024;
    pub const LONGEST: u32 = 999;

    #[rustfmt::skip]
    pub const ALL: [Gathered; 8] = {
        use Gathering::{Half, Tenths};
        use Spread::{Even, Short};
        [
            Gathered { name: "gathered 1", gathering: Half, sets: 1, per_set: 6_000, thresholds: 64, spread: Even },
            Gathered { name: "gathered 2", gathering: Half, sets: 1, per_set: 6_000, thresholds: 64, spread: Short },
            Gathered { name: "gathered 3", gathering: Half, sets: 1, per_set: 6_000, thresholds: 8, spread: Even },
            Gathered { name: "gathered 4", gathering: Half, sets: 8, per_set: 750, thresholds: 64, spread: Even },
            Gathered { name: "gathered 5", gathering: Tenths, sets: 1, per_set: 5_600, thresholds: 64, spread: Even },
            Gathered { name: "gathered 6", gathering: Tenths, sets: 1, per_set: 5_600, thresholds: 64, spread: Short },
            Gathered { name: "gathered 7", gathering: Tenths, sets: 8, per_set: 700, thresholds: 64, spread: Even },
            Gathered { name: "gathered 8", gathering: Tenths, sets: 8, per_set: 700, thresholds: 4, spread: Even },
        ]
    };

    /// The network, the reports and the thresholds, the same every time.
    pub fn lists(&self) -> (NetworkInput, ReportInput, Vec<u32>) {
        let mut rng = Rng::new(2026);
        let network = ring_network(&mut rng, Self::NODES, Self::LEGS, Self::LONGEST);
        let reports = self.gathering.reports(&mut rng, &network, self.sets, self.per_set);
        (network, reports, self.spread.thresholds(self.thresholds, Self::LONGEST))
    }
}
