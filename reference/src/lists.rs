//! Checks of lists. The lowest number decides, then the lowest place.
//!
//! Every fault is offered to a `Faults`, which keeps the lowest one by
//! (number, place). So checks can be joined in any order: a fault that only
//! looks like one because of an earlier one (an offset on a leg that is not
//! there) is either not offered, or is outbid by the lower number.

/// Why an input is turned back: the paper's number, and a place.
#[derive(Clone, Copy, Debug, PartialEq, Eq, PartialOrd, Ord)]
pub struct Refusal {
    pub number: u32,
    pub place: u64,
}

pub const MAX_NODES: u32 = 512;
pub const MAX_LEGS: usize = 1_024;
pub const MAX_LENGTH: u32 = 1_000_000;
pub const MAX_REPORTS: usize = 8_192;
/// The greatest set number.
pub const MAX_SET: u32 = 31;
pub const MAX_THRESHOLDS: usize = 64;

/// Keeps the lowest fault offered to it.
#[derive(Clone, Copy, Debug, Default)]
pub struct Faults {
    least: Option<Refusal>,
}

impl Faults {
    pub fn new() -> Faults {
        Faults { least: None }
    }

    pub fn add(&mut self, number: u32, place: u64) {
        let fault = Refusal { number, place };
        self.least = Some(match self.least {
            Some(old) if old <= fault => old,
            _ => fault,
        });
    }

    pub fn result(self) -> Result<(), Refusal> {
        match self.least {
            Some(refusal) => Err(refusal),
            None => Ok(()),
        }
    }

    /// 2, 6, 7, 9 of network lists. A leg may join a node to itself.
    ///
    /// Doubtful: too many legs is a 6. The paper gives a surplus place only
    /// for 11, 15 and 18, so a 6 of lists always stands at 0.
    pub fn network(&mut self, nodes: u32, firsts: &[u32], seconds: &[u32], lengths: &[u32]) {
        if firsts.len() != seconds.len() || firsts.len() != lengths.len() {
            self.add(2, 0);
        }
        if !(1..=MAX_NODES).contains(&nodes) || lengths.is_empty() || lengths.len() > MAX_LEGS {
            self.add(6, 0);
        }
        for (place, &node) in firsts.iter().enumerate() {
            if node < 1 || node > nodes {
                self.add(7, place as u64);
            }
        }
        for (place, &node) in seconds.iter().enumerate() {
            if node < 1 || node > nodes {
                self.add(7, place as u64);
            }
        }
        for (place, &length) in lengths.iter().enumerate() {
            if !(1..=MAX_LENGTH).contains(&length) {
                self.add(9, place as u64);
            }
        }
    }

    /// 7 of a lone node, at place 0.
    pub fn node(&mut self, nodes: u32, node: u32) {
        if node < 1 || node > nodes {
            self.add(7, 0);
        }
    }

    /// 13 and 14 of a lone leg and offset, at place 0.
    pub fn location(&mut self, lengths: &[u32], leg: u32, offset: u32) {
        self.location_at(lengths, leg, offset, 0);
    }

    /// 13 of a lone leg, at place 0.
    pub fn leg(&mut self, lengths: &[u32], leg: u32) {
        if leg_length(lengths, leg).is_none() {
            self.add(13, 0);
        }
    }

    fn location_at(&mut self, lengths: &[u32], leg: u32, offset: u32, place: u64) {
        match leg_length(lengths, leg) {
            None => self.add(13, place),
            Some(length) if offset > length => self.add(14, place),
            Some(_) => {}
        }
    }

    /// 2, 13, 14, 15 of the reports of one set.
    pub fn one_set(&mut self, lengths: &[u32], legs: &[u32], offsets: &[u32]) {
        if legs.len() != offsets.len() {
            self.add(2, 0);
        }
        for (place, (&leg, &offset)) in legs.iter().zip(offsets).enumerate() {
            self.location_at(lengths, leg, offset, place as u64);
        }
        if legs.len() > MAX_REPORTS {
            self.add(15, MAX_REPORTS as u64);
        }
    }

    /// 2, 12, 13, 14, 15, 16 of the reports of all sets.
    pub fn reports(&mut self, lengths: &[u32], sets: &[u32], legs: &[u32], offsets: &[u32]) {
        if sets.len() != legs.len() {
            self.add(2, 0);
        }
        for (place, &set) in sets.iter().enumerate() {
            if set > MAX_SET {
                self.add(12, place as u64);
            }
        }
        self.one_set(lengths, legs, offsets);
        if let Some(set) = odd_sized_set(sets) {
            self.add(16, u64::from(set));
        }
    }

    /// 17: one set's reports rise by leg, then by offset; equals may follow
    /// each other. Place: the first one below its forerunner.
    pub fn order(&mut self, legs: &[u32], offsets: &[u32]) {
        let mut before: Option<(u32, u32)> = None;
        for (place, (&leg, &offset)) in legs.iter().zip(offsets).enumerate() {
            let here = (leg, offset);
            if before.is_some_and(|old| here < old) {
                self.add(17, place as u64);
                return;
            }
            before = Some(here);
        }
    }

    /// 18, 19 of thresholds.
    pub fn thresholds(&mut self, thresholds: &[u32]) {
        if thresholds.is_empty() {
            self.add(18, 0);
        }
        if thresholds.len() > MAX_THRESHOLDS {
            self.add(18, MAX_THRESHOLDS as u64);
        }
        for (place, two) in thresholds.windows(2).enumerate() {
            if two[1] <= two[0] {
                self.add(19, place as u64 + 1);
            }
        }
    }

    /// 2: an answer list is too short.
    pub fn answer(&mut self, needed: usize, given: usize) {
        if given < needed {
            self.add(2, 0);
        }
    }
}

/// The length of a leg numbered from 1, if there is such a leg.
pub fn leg_length(lengths: &[u32], leg: u32) -> Option<u32> {
    let index = (leg as usize).checked_sub(1)?;
    lengths.get(index).copied()
}

/// One more than the greatest set number present; 1 with no reports.
/// Set numbers above 31 are a 12, and are passed over here.
pub fn number_of_sets(sets: &[u32]) -> usize {
    let greatest = sets.iter().copied().filter(|&s| s <= MAX_SET).max();
    greatest.unwrap_or(0) as usize + 1
}

/// The sizes of sets 0 up to the greatest one present.
pub fn set_sizes(sets: &[u32]) -> Vec<usize> {
    let mut sizes = vec![0; number_of_sets(sets)];
    for &set in sets {
        if let Some(size) = sizes.get_mut(set as usize) {
            *size += 1;
        }
    }
    sizes
}

/// The lowest comparison set that differs in size from set 0 (16).
/// A set number with no reports below the greatest one is a set of size 0.
pub fn odd_sized_set(sets: &[u32]) -> Option<u32> {
    let sizes = set_sizes(sets);
    let observed = sizes[0];
    sizes.iter().position(|&size| size != observed).map(|set| set as u32)
}

/// Network lists: 2, 6, 7, 9.
pub fn check_network(nodes: u32, firsts: &[u32], seconds: &[u32], lengths: &[u32]) -> Result<(), Refusal> {
    let mut faults = Faults::new();
    faults.network(nodes, firsts, seconds, lengths);
    faults.result()
}

/// Network lists with lone nodes beside them (7 at place 0).
pub fn check_network_nodes(
    nodes: u32,
    firsts: &[u32],
    seconds: &[u32],
    lengths: &[u32],
    lone: &[u32],
) -> Result<(), Refusal> {
    let mut faults = Faults::new();
    faults.network(nodes, firsts, seconds, lengths);
    for &node in lone {
        faults.node(nodes, node);
    }
    faults.result()
}

/// Network lists with lone legs and offsets beside them (13, 14 at place 0).
pub fn check_network_locations(
    nodes: u32,
    firsts: &[u32],
    seconds: &[u32],
    lengths: &[u32],
    lone: &[(u32, u32)],
) -> Result<(), Refusal> {
    let mut faults = Faults::new();
    faults.network(nodes, firsts, seconds, lengths);
    for &(leg, offset) in lone {
        faults.location(lengths, leg, offset);
    }
    faults.result()
}

/// Network lists and the reports of all sets: 2, 6, 7, 9, 12 to 16.
pub fn check_reports(
    nodes: u32,
    firsts: &[u32],
    seconds: &[u32],
    lengths: &[u32],
    sets: &[u32],
    legs: &[u32],
    offsets: &[u32],
) -> Result<(), Refusal> {
    let mut faults = Faults::new();
    faults.network(nodes, firsts, seconds, lengths);
    faults.reports(lengths, sets, legs, offsets);
    faults.result()
}

/// Network lists and the reports of one set in any order: 2, 6, 7, 9, 13 to 15.
pub fn check_one_set(
    nodes: u32,
    firsts: &[u32],
    seconds: &[u32],
    lengths: &[u32],
    legs: &[u32],
    offsets: &[u32],
) -> Result<(), Refusal> {
    let mut faults = Faults::new();
    faults.network(nodes, firsts, seconds, lengths);
    faults.one_set(lengths, legs, offsets);
    faults.result()
}

/// Network lists and one laid-out set: 2, 6, 7, 9, 13 to 15, 17.
pub fn check_laid_out(
    nodes: u32,
    firsts: &[u32],
    seconds: &[u32],
    lengths: &[u32],
    legs: &[u32],
    offsets: &[u32],
) -> Result<(), Refusal> {
    let mut faults = Faults::new();
    faults.network(nodes, firsts, seconds, lengths);
    faults.one_set(lengths, legs, offsets);
    faults.order(legs, offsets);
    faults.result()
}

/// Thresholds: 18, 19.
pub fn check_thresholds(thresholds: &[u32]) -> Result<(), Refusal> {
    let mut faults = Faults::new();
    faults.thresholds(thresholds);
    faults.result()
}

/// The same reports, rising by leg and then by offset.
/// Pairs up to the shorter list; lists of different lengths are a 2 elsewhere.
pub fn lay_out(legs: &[u32], offsets: &[u32]) -> (Vec<u32>, Vec<u32>) {
    let mut reports: Vec<(u32, u32)> = legs.iter().copied().zip(offsets.iter().copied()).collect();
    reports.sort_unstable();
    reports.into_iter().unzip()
}

/// The stretch of laid-out offsets that belongs to one leg. If refused, the
/// stretch is empty and the refusal stands beside it.
pub fn stretch<'a>(
    nodes: u32,
    firsts: &[u32],
    seconds: &[u32],
    lengths: &[u32],
    legs: &[u32],
    offsets: &'a [u32],
    leg: u32,
) -> (&'a [u32], Result<(), Refusal>) {
    let mut faults = Faults::new();
    faults.network(nodes, firsts, seconds, lengths);
    faults.leg(lengths, leg);
    faults.one_set(lengths, legs, offsets);
    faults.order(legs, offsets);
    let result = faults.result();
    if result.is_err() {
        return (&[], result);
    }
    let from = legs.partition_point(|&other| other < leg);
    let to = legs.partition_point(|&other| other <= leg);
    (offsets.get(from..to).unwrap_or(&[]), result)
}
