//! The counting functions as a caller with plain lists sees them: every check
//! first, then the answer lists, which keep their contents on a refusal and
//! their surplus otherwise.

use crate::counts::{augment as stored, sweep, Counts, Mark, Method};
use crate::distance::NodeTable;
use crate::lists::{Faults, Refusal};
use crate::model::{LaidOut, Network, Sets, Thresholds};
use crate::random::{NetworkInput, ReportInput};

/// The front of an answer list replaced.
fn write(list: &mut [u32], values: &[u32]) {
    for (cell, &value) in list.iter_mut().zip(values) {
        *cell = value;
    }
}

fn made(net: &NetworkInput) -> Result<Network, Refusal> {
    Network::new(net.nodes, &net.firsts, &net.seconds, &net.lengths)
}

/// How many counts there are: the number of sets is one more than the greatest
/// set number present, also where that is refused.
pub fn counts_wanted(sets: &[u32], thresholds: &[u32]) -> usize {
    (sets.iter().copied().max().unwrap_or(0) as usize + 1) * thresholds.len()
}

/// Pair counts set by set, and under each set threshold by threshold. `by` is
/// that of `counts`, or for timing that of `tuned`.
pub fn counts(
    by: fn(Method, &Network, &Sets, &Thresholds) -> Counts,
    method: Method,
    net: &NetworkInput,
    reports: &ReportInput,
    thresholds: &[u32],
    answers: &mut [u32],
) -> Result<(), Refusal> {
    let mut faults = Faults::new();
    faults.network(net.nodes, &net.firsts, &net.seconds, &net.lengths);
    faults.reports(&net.lengths, &reports.sets, &reports.legs, &reports.offsets);
    faults.answer(counts_wanted(&reports.sets, thresholds), answers.len());
    faults.thresholds(thresholds);
    faults.result()?;
    let network = made(net)?;
    let sets = Sets::new(&network, &reports.sets, &reports.legs, &reports.offsets)?;
    let rows = by(method, &network, &sets, &Thresholds::new(thresholds)?);
    let values: Vec<u32> = rows.into_iter().flatten().map(|count| count as u32).collect();
    write(answers, &values);
    Ok(())
}

/// Stored numbers of one laid-out set.
pub fn augment(
    net: &NetworkInput,
    legs: &[u32],
    offsets: &[u32],
    near_first: &mut [u32],
    near_second: &mut [u32],
) -> Result<(), Refusal> {
    let mut faults = Faults::new();
    faults.network(net.nodes, &net.firsts, &net.seconds, &net.lengths);
    faults.one_set(&net.lengths, legs, offsets);
    faults.order(legs, offsets);
    faults.answer(legs.len(), near_first.len());
    faults.answer(legs.len(), near_second.len());
    faults.result()?;
    let numbers = stored(&LaidOut::new(&made(net)?, legs, offsets)?);
    write(near_first, &numbers.near_first);
    write(near_second, &numbers.near_second);
    Ok(())
}

/// Positions and moves of the six marks of two legs: first-first, first-second,
/// second-first, second-second, below, not above. 0 is no mark, else one more.
pub fn cursors(
    net: &NetworkInput,
    legs: &[u32],
    offsets: &[u32],
    two_legs: (u32, u32),
    threshold: u32,
    bound: u32,
    positions: &mut [u32],
    moves: &mut [u32],
) -> Result<(), Refusal> {
    let (one, two) = two_legs;
    let on_first = legs.iter().zip(offsets).filter(|&(&leg, _)| leg == one).count();
    let mut faults = Faults::new();
    faults.network(net.nodes, &net.firsts, &net.seconds, &net.lengths);
    faults.leg(&net.lengths, one);
    faults.leg(&net.lengths, two);
    faults.one_set(&net.lengths, legs, offsets);
    faults.order(legs, offsets);
    faults.answer(6 * on_first, positions.len());
    faults.answer(6, moves.len());
    faults.result()?;
    let network = made(net)?;
    let set = LaidOut::new(&network, legs, offsets)?;
    let swept = sweep(&network, &NodeTable::bounded(&network, bound), &set, one, two, threshold)?;
    let window = swept.window.map_or([None, None], |marks| marks.map(Some));
    let six: Vec<Option<Mark>> = swept.routes.into_iter().chain(window).collect();
    let (mut all, mut sums) = (Vec::new(), Vec::new());
    for mark in &six {
        match mark {
            Some(mark) => all.extend(mark.positions.iter().map(|position| position + 1)),
            None => all.extend(std::iter::repeat_n(0, on_first)),
        }
        sums.push(mark.as_ref().map_or(0, |mark| mark.moves as u32 + 1));
    }
    write(positions, &all);
    write(moves, &sums);
    Ok(())
}
