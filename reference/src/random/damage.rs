//! Lists and texts spoilt in small ways.

use super::{NetworkInput, ReportInput, Rng};
use crate::lists::{MAX_LEGS, MAX_LENGTH, MAX_REPORTS, MAX_THRESHOLDS};
use crate::text::{csv_lines, gr_lines};

/// A number near a limit, where checks may slip.
pub fn near_limit(rng: &mut Rng) -> u32 {
    const SPOTS: [u32; 12] =
        [0, 1, 2, 31, 32, 512, 513, 1_024, 1_025, MAX_LENGTH, MAX_LENGTH + 1, u32::MAX];
    let spot = rng.pick(&SPOTS, 0);
    match rng.below(3) {
        0 => spot,
        1 => spot.saturating_sub(1),
        _ => spot.saturating_add(1),
    }
}

/// Damage one list: a cell changed, dropped, doubled, or two swapped.
pub fn damage_list(rng: &mut Rng, list: &mut Vec<u32>) {
    let at = rng.index(list.len());
    if at >= list.len() {
        list.push(near_limit(rng));
        return;
    }
    match rng.below(6) {
        0 => {
            list.remove(at);
        }
        1 => {
            let cell = list[at];
            list.insert(at, cell);
        }
        2 => {
            let other = rng.index(list.len());
            list.swap(at, other);
        }
        3 => list[at] = list[at].wrapping_add(1),
        _ => list[at] = near_limit(rng),
    }
}

/// Damage network lists in 1 to 3 spots.
pub fn damage_network(rng: &mut Rng, input: &mut NetworkInput) {
    for _ in 0..rng.between(1, 3) {
        match rng.below(9) {
            0 => input.nodes = near_limit(rng),
            1 | 2 => damage_list(rng, &mut input.firsts),
            3 | 4 => damage_list(rng, &mut input.seconds),
            5 | 6 => damage_list(rng, &mut input.lengths),
            7 => {
                // A leg becomes a loop, which is no fault.
                let leg = rng.index(input.firsts.len());
                if let (Some(&first), Some(second)) = (input.firsts.get(leg), input.seconds.get_mut(leg)) {
                    *second = first;
                }
            }
            _ => {
                // Grow all lists alike, now and then over the limit.
                let more = if rng.once_in(2) { 1 } else { MAX_LEGS };
                for _ in 0..more {
                    input.firsts.push(1);
                    input.seconds.push(2);
                    input.lengths.push(1);
                }
            }
        }
    }
}

/// Damage report lists in 1 to 3 spots.
pub fn damage_reports(rng: &mut Rng, input: &mut ReportInput) {
    for _ in 0..rng.between(1, 3) {
        match rng.below(8) {
            0 | 1 => damage_list(rng, &mut input.sets),
            2 | 3 => damage_list(rng, &mut input.legs),
            4 | 5 => damage_list(rng, &mut input.offsets),
            6 => {
                // Drop one report: the sizes of sets differ.
                let at = rng.index(input.sets.len());
                for list in [&mut input.sets, &mut input.legs, &mut input.offsets] {
                    if at < list.len() {
                        list.remove(at);
                    }
                }
            }
            _ => {
                let more = if rng.once_in(4) { MAX_REPORTS } else { 1 };
                for _ in 0..more {
                    input.sets.push(0);
                    input.legs.push(1);
                    input.offsets.push(0);
                }
            }
        }
    }
}

/// Damage thresholds: as a list, or over the limit, or none at all.
pub fn damage_thresholds(rng: &mut Rng, values: &mut Vec<u32>) {
    match rng.below(4) {
        0 => values.clear(),
        1 => {
            let from = values.last().copied().unwrap_or(0);
            values.extend((1..=MAX_THRESHOLDS as u32 + 1).map(|k| from.saturating_add(k)));
        }
        _ => damage_list(rng, values),
    }
}

/// Damage a text byte by byte in 1 to 3 spots: a byte changed, deleted,
/// inserted, doubled, or the rest cut off.
pub fn damage_bytes(rng: &mut Rng, text: &[u8]) -> Vec<u8> {
    const BYTES: &[u8] = b"0123456789 ,\r\n\tacps-+.\"";
    let mut text = text.to_vec();
    for _ in 0..rng.between(1, 3) {
        let at = rng.index(text.len());
        let byte = if rng.once_in(8) { rng.below(256) as u8 } else { rng.pick(BYTES, b'0') };
        if at >= text.len() {
            text.push(byte);
            continue;
        }
        match rng.below(9) {
            0..=2 => text[at] = byte,
            3 | 4 => {
                text.remove(at);
            }
            5 | 6 => text.insert(at, byte),
            7 => {
                let same = text[at];
                text.insert(at, same);
            }
            _ => {
                if rng.once_in(3) {
                    text.truncate(at);
                }
            }
        }
    }
    text
}

/// Damage a text line by line in 1 to 3 spots: lines swapped, doubled, dropped,
/// emptied, or a number in one changed to one near a limit.
pub fn damage_lines(rng: &mut Rng, text: &[u8], csv: bool) -> Vec<u8> {
    let (lines, end): (_, &[u8]) = if csv { (csv_lines(text), b"\r\n") } else { (gr_lines(text), b"\n") };
    let mut lines: Vec<Vec<u8>> = lines.into_iter().map(<[u8]>::to_vec).collect();
    for _ in 0..rng.between(1, 3) {
        let at = rng.index(lines.len());
        if at >= lines.len() {
            break;
        }
        match rng.below(8) {
            0 => {
                let other = rng.index(lines.len());
                lines.swap(at, other);
            }
            1 => {
                let same = lines[at].clone();
                lines.insert(at, same);
            }
            2 => {
                lines.remove(at);
            }
            3 => lines.insert(at, Vec::new()),
            _ => {
                let part = if csv { b',' } else { b' ' };
                let mut fields: Vec<Vec<u8>> = lines[at].split(|&b| b == part).map(<[u8]>::to_vec).collect();
                let field = rng.index(fields.len());
                fields[field] = match rng.below(6) {
                    0 => b"4294967296".to_vec(),
                    1 => b"01".to_vec(),
                    _ => near_limit(rng).to_string().into_bytes(),
                };
                lines[at] = fields.join(&part);
            }
        }
    }
    let mut out = lines.join(end);
    if !rng.once_in(4) && !out.is_empty() {
        out.extend(end);
    }
    out
}
