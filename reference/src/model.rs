//! Checked inputs: a network, the sets laid out by leg, and the thresholds.
//! They can only be made through the checks in `lists`, so the counting code
//! may index them freely.

use crate::lists::{leg_length, lay_out, number_of_sets, Faults, Refusal};

/// A network. Nodes and legs are numbered from 1.
#[derive(Clone, Debug, PartialEq, Eq)]
pub struct Network {
    nodes: u32,
    firsts: Vec<u32>,
    seconds: Vec<u32>,
    lengths: Vec<u32>,
}

impl Network {
    pub fn new(nodes: u32, firsts: &[u32], seconds: &[u32], lengths: &[u32]) -> Result<Network, Refusal> {
        let mut faults = Faults::new();
        faults.network(nodes, firsts, seconds, lengths);
        faults.result()?;
        Ok(Network { nodes, firsts: firsts.to_vec(), seconds: seconds.to_vec(), lengths: lengths.to_vec() })
    }

    pub fn nodes(&self) -> u32 {
        self.nodes
    }

    pub fn legs(&self) -> usize {
        self.lengths.len()
    }

    pub fn firsts(&self) -> &[u32] {
        &self.firsts
    }

    pub fn seconds(&self) -> &[u32] {
        &self.seconds
    }

    pub fn lengths(&self) -> &[u32] {
        &self.lengths
    }

    /// First node, second node and length of a leg.
    pub fn leg(&self, leg: u32) -> Option<(u32, u32, u32)> {
        let length = leg_length(&self.lengths, leg)?;
        let index = leg as usize - 1;
        Some((self.firsts[index], self.seconds[index], length))
    }

    pub fn check_node(&self, node: u32) -> Result<(), Refusal> {
        let mut faults = Faults::new();
        faults.node(self.nodes, node);
        faults.result()
    }

    pub fn check_location(&self, leg: u32, offset: u32) -> Result<(), Refusal> {
        let mut faults = Faults::new();
        faults.location(&self.lengths, leg, offset);
        faults.result()
    }
}

/// One set of reports, rising by leg and then by offset.
#[derive(Clone, Debug, PartialEq, Eq)]
pub struct LaidOut {
    legs: Vec<u32>,
    offsets: Vec<u32>,
    /// Leg `k` owns `starts[k - 1] .. starts[k]`.
    starts: Vec<usize>,
    /// Over the same stretch, the gaps to the leg's second end, rising: the
    /// reverse of the offsets, each taken from the length.
    second_gaps: Vec<u32>,
    /// The legs with at least one report.
    occupied: Vec<u32>,
}

impl LaidOut {
    /// Reports of one set, in any order.
    pub fn new(network: &Network, legs: &[u32], offsets: &[u32]) -> Result<LaidOut, Refusal> {
        let mut faults = Faults::new();
        faults.one_set(network.lengths(), legs, offsets);
        faults.result()?;
        let (legs, offsets) = lay_out(legs, offsets);
        let mut starts = vec![0; network.legs() + 1];
        for &leg in &legs {
            starts[leg as usize] += 1;
        }
        for leg in 1..starts.len() {
            starts[leg] += starts[leg - 1];
        }
        let mut second_gaps = Vec::with_capacity(offsets.len());
        let mut occupied = Vec::new();
        for (index, &length) in network.lengths().iter().enumerate() {
            let own = &offsets[starts[index]..starts[index + 1]];
            second_gaps.extend(own.iter().rev().map(|&offset| length - offset));
            if !own.is_empty() {
                occupied.push(index as u32 + 1);
            }
        }
        Ok(LaidOut { legs, offsets, starts, second_gaps, occupied })
    }

    pub fn len(&self) -> usize {
        self.legs.len()
    }

    pub fn is_empty(&self) -> bool {
        self.legs.is_empty()
    }

    pub fn legs(&self) -> &[u32] {
        &self.legs
    }

    pub fn offsets(&self) -> &[u32] {
        &self.offsets
    }

    /// The legs that have reports, rising.
    pub fn occupied(&self) -> &[u32] {
        &self.occupied
    }

    /// Where the leg's reports stand in the lists; empty for a leg that is
    /// not there.
    pub fn range(&self, leg: u32) -> std::ops::Range<usize> {
        let index = leg as usize;
        match (index.checked_sub(1).and_then(|i| self.starts.get(i)), self.starts.get(index)) {
            (Some(&from), Some(&to)) => from..to,
            _ => 0..0,
        }
    }

    /// The leg's offsets, rising.
    pub fn first_gaps(&self, leg: u32) -> &[u32] {
        &self.offsets[self.range(leg)]
    }

    /// The leg's gaps to its second end, rising.
    pub fn second_gaps(&self, leg: u32) -> &[u32] {
        &self.second_gaps[self.range(leg)]
    }
}

/// All sets, each laid out.
#[derive(Clone, Debug, PartialEq, Eq)]
pub struct Sets {
    sets: Vec<LaidOut>,
}

impl Sets {
    pub fn new(network: &Network, sets: &[u32], legs: &[u32], offsets: &[u32]) -> Result<Sets, Refusal> {
        let mut faults = Faults::new();
        faults.reports(network.lengths(), sets, legs, offsets);
        faults.result()?;
        let mut parts = vec![(Vec::new(), Vec::new()); number_of_sets(sets)];
        for ((&set, &leg), &offset) in sets.iter().zip(legs).zip(offsets) {
            let part = &mut parts[set as usize];
            part.0.push(leg);
            part.1.push(offset);
        }
        let mut laid = Vec::with_capacity(parts.len());
        for (legs, offsets) in &parts {
            laid.push(LaidOut::new(network, legs, offsets)?);
        }
        Ok(Sets { sets: laid })
    }

    pub fn all(&self) -> &[LaidOut] {
        &self.sets
    }
}

/// 1 to 64 rising thresholds.
#[derive(Clone, Debug, PartialEq, Eq)]
pub struct Thresholds {
    values: Vec<u32>,
}

impl Thresholds {
    pub fn new(values: &[u32]) -> Result<Thresholds, Refusal> {
        let mut faults = Faults::new();
        faults.thresholds(values);
        faults.result()?;
        Ok(Thresholds { values: values.to_vec() })
    }

    pub fn values(&self) -> &[u32] {
        &self.values
    }

    /// The greatest threshold: the bound of the leg-end distances.
    pub fn greatest(&self) -> u32 {
        self.values.last().copied().unwrap_or(0)
    }
}
