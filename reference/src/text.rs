//! Readers of the three texts.
//!
//! The first bad line decides, and in it the lowest number. What is missing at
//! the end has the place one after the last line. An empty text has no lines,
//! so its end is line 1.

use crate::lists::{
    check_network, leg_length, number_of_sets, odd_sized_set, Refusal, MAX_LEGS, MAX_LENGTH, MAX_NODES, MAX_REPORTS,
    MAX_SET, MAX_THRESHOLDS,
};

/// The most bytes of a text.
pub const MAX_TEXT: usize = 60_000;
/// The header of a report text.
pub const REPORT_HEADER: &[u8] = b"set,leg,offset";
/// The header of a threshold text.
pub const THRESHOLD_HEADER: &[u8] = b"threshold";

fn refuse<T>(number: u32, place: u64) -> Result<T, Refusal> {
    Err(Refusal { number, place })
}

fn check_size(text: &[u8]) -> Result<(), Refusal> {
    if text.len() > MAX_TEXT {
        return refuse(1, 0);
    }
    Ok(())
}

/// Lines ended by a line feed; the last may lack it. A text that ends with a
/// line feed has no further empty line. A carriage return is a byte like any
/// other (so `p sp 2 2` with a carriage return has none of the forms, and
/// within a remark after `c ` it is allowed).
pub fn gr_lines(text: &[u8]) -> Vec<&[u8]> {
    split_lines(text, b"\n")
}

/// Lines ended by carriage return and line feed; the last may lack both. A
/// carriage return or line feed alone is a byte of its line, also at the end
/// of the text (a last line that lacks only the line feed has none of the
/// forms).
pub fn csv_lines(text: &[u8]) -> Vec<&[u8]> {
    split_lines(text, b"\r\n")
}

fn split_lines<'a>(text: &'a [u8], end: &[u8]) -> Vec<&'a [u8]> {
    let mut lines = Vec::new();
    let mut rest = text;
    while !rest.is_empty() {
        match rest.windows(end.len()).position(|window| window == end) {
            Some(at) => {
                lines.push(&rest[..at]);
                rest = &rest[at + end.len()..];
            }
            None => {
                lines.push(rest);
                rest = &[];
            }
        }
    }
    lines
}

/// 1 to 10 decimal digits, no leading zero unless it is 0 itself, at most
/// 4,294,967,295. Anything else is no number, so its line has none of the
/// forms (3).
pub fn number(bytes: &[u8]) -> Option<u32> {
    if bytes.is_empty() || bytes.len() > 10 || (bytes.len() > 1 && bytes[0] == b'0') {
        return None;
    }
    let mut value = 0u64;
    for &byte in bytes {
        if !byte.is_ascii_digit() {
            return None;
        }
        value = value * 10 + u64::from(byte - b'0');
    }
    u32::try_from(value).ok()
}

/// Exactly `K` numbers parted by one byte.
fn numbers<const K: usize>(bytes: &[u8], part: u8) -> Option<[u32; K]> {
    let mut values = [0; K];
    let mut fields = bytes.split(|&byte| byte == part);
    for value in &mut values {
        *value = number(fields.next()?)?;
    }
    if fields.next().is_some() {
        return None;
    }
    Some(values)
}

enum GrLine {
    Remark,
    Problem { nodes: u32, arcs: u32 },
    Arc { from: u32, to: u32, weight: u32 },
}

/// Which form a line has, if any. An empty line has none.
fn gr_line(line: &[u8]) -> Option<GrLine> {
    // `c` alone, or `c`, a space and anything: `c ` with nothing after it too.
    if line == b"c" || line.starts_with(b"c ") {
        return Some(GrLine::Remark);
    }
    if let Some(rest) = line.strip_prefix(b"p sp ") {
        let [nodes, arcs] = numbers(rest, b' ')?;
        return Some(GrLine::Problem { nodes, arcs });
    }
    if let Some(rest) = line.strip_prefix(b"a ") {
        let [from, to, weight] = numbers(rest, b' ')?;
        return Some(GrLine::Arc { from, to, weight });
    }
    None
}

/// Network lists as read from a text.
#[derive(Clone, Debug, PartialEq, Eq)]
pub struct NetworkLists {
    pub nodes: u32,
    pub firsts: Vec<u32>,
    pub seconds: Vec<u32>,
    pub lengths: Vec<u32>,
}

/// Read a .gr text.
///
/// Every arc line meets 7 and 9 by itself, also a second or a surplus one,
/// before 10 and 11. A leg from a node to itself is the same line twice. A
/// surplus arc is never the second of two (M is even), so it cannot meet 10. An
/// arc before the `p` line is a 5 whatever its fields are; a second `p` line is
/// a 5 whatever its N and M are. Remarks may stand anywhere, also after the last
/// arc.
pub fn parse_network(text: &[u8]) -> Result<NetworkLists, Refusal> {
    check_size(text)?;
    let lines = gr_lines(text);
    let mut head: Option<(u32, usize)> = None;
    let mut arcs: Vec<(u32, u32, u32)> = Vec::new();
    for (index, line) in lines.iter().enumerate() {
        let place = index as u64 + 1;
        match (gr_line(line), head) {
            (None, _) => return refuse(3, place),
            (Some(GrLine::Remark), _) => {}
            (Some(GrLine::Problem { .. }), Some(_)) => return refuse(5, place),
            (Some(GrLine::Problem { nodes, arcs }), None) => {
                if !(1..=MAX_NODES).contains(&nodes) || arcs % 2 == 1 || arcs < 2 || arcs as usize > 2 * MAX_LEGS {
                    return refuse(6, place);
                }
                head = Some((nodes, arcs as usize));
            }
            (Some(GrLine::Arc { .. }), None) => return refuse(5, place),
            (Some(GrLine::Arc { from, to, weight }), Some((nodes, promised))) => {
                if from < 1 || from > nodes || to < 1 || to > nodes {
                    return refuse(7, place);
                }
                if !(1..=MAX_LENGTH).contains(&weight) {
                    return refuse(9, place);
                }
                if arcs.len() % 2 == 1 && arcs.last() != Some(&(to, from, weight)) {
                    return refuse(10, place);
                }
                if arcs.len() >= promised {
                    return refuse(11, place);
                }
                arcs.push((from, to, weight));
            }
        }
    }
    let end = lines.len() as u64 + 1;
    let Some((nodes, promised)) = head else {
        return refuse(5, end);
    };
    if arcs.len() < promised {
        return refuse(11, end);
    }
    let legs = || arcs.iter().step_by(2);
    Ok(NetworkLists {
        nodes,
        firsts: legs().map(|&(from, _, _)| from).collect(),
        seconds: legs().map(|&(_, to, _)| to).collect(),
        lengths: legs().map(|&(_, _, weight)| weight).collect(),
    })
}

/// Read a .gr text into answer lists; gives the numbers of nodes and legs.
/// Too short answer lists are a 2, last of all. On a refusal the lists keep
/// their contents; on success a longer one keeps its surplus.
pub fn read_network(
    text: &[u8],
    firsts: &mut [u32],
    seconds: &mut [u32],
    lengths: &mut [u32],
) -> Result<(u32, usize), Refusal> {
    let lists = parse_network(text)?;
    fill(&mut [(&lists.firsts, firsts), (&lists.seconds, seconds), (&lists.lengths, lengths)])?;
    Ok((lists.nodes, lists.lengths.len()))
}

/// Copy each list into its answer list, all or none.
fn fill(pairs: &mut [(&[u32], &mut [u32])]) -> Result<(), Refusal> {
    if pairs.iter().any(|(from, to)| to.len() < from.len()) {
        return refuse(2, 0);
    }
    for (from, to) in pairs {
        for (cell, &value) in to.iter_mut().zip(from.iter()) {
            *cell = value;
        }
    }
    Ok(())
}

/// Report lists as read from a text, in the order of the rows.
#[derive(Clone, Debug, PartialEq, Eq)]
pub struct ReportLists {
    pub sets: Vec<u32>,
    pub legs: Vec<u32>,
    pub offsets: Vec<u32>,
}

/// Read a report text over lent network lists.
///
/// Order: 1 (a fault of the text as a whole, and the first in checking order),
/// faults of the lists (2, 6, 7, 9), the lines (3, 4, 12 to 15), then 16. A text
/// of no lines is a 4 at line 1. In a surplus row 12 to 14 come before 15.
pub fn parse_reports(
    text: &[u8],
    nodes: u32,
    firsts: &[u32],
    seconds: &[u32],
    lengths: &[u32],
) -> Result<ReportLists, Refusal> {
    check_size(text)?;
    check_network(nodes, firsts, seconds, lengths)?;
    let lines = csv_lines(text);
    // No line and a wrong first line have the same place.
    if lines.first() != Some(&REPORT_HEADER) {
        return refuse(4, 1);
    }
    let mut lists = ReportLists { sets: Vec::new(), legs: Vec::new(), offsets: Vec::new() };
    for (index, line) in lines.iter().enumerate().skip(1) {
        let place = index as u64 + 1;
        let Some([set, leg, offset]) = numbers(line, b',') else {
            return refuse(3, place);
        };
        if set > MAX_SET {
            return refuse(12, place);
        }
        match leg_length(lengths, leg) {
            None => return refuse(13, place),
            Some(length) if offset > length => return refuse(14, place),
            Some(_) => {}
        }
        if lists.sets.len() >= MAX_REPORTS {
            return refuse(15, place);
        }
        lists.sets.push(set);
        lists.legs.push(leg);
        lists.offsets.push(offset);
    }
    if let Some(set) = odd_sized_set(&lists.sets) {
        return refuse(16, u64::from(set));
    }
    Ok(lists)
}

/// Read a report text into answer lists; gives the numbers of reports and of
/// sets. Too short answer lists are a 2, after 16.
#[allow(clippy::too_many_arguments)]
pub fn read_reports(
    text: &[u8],
    nodes: u32,
    firsts: &[u32],
    seconds: &[u32],
    lengths: &[u32],
    sets: &mut [u32],
    legs: &mut [u32],
    offsets: &mut [u32],
) -> Result<(usize, usize), Refusal> {
    let lists = parse_reports(text, nodes, firsts, seconds, lengths)?;
    fill(&mut [(&lists.sets, sets), (&lists.legs, legs), (&lists.offsets, offsets)])?;
    Ok((lists.sets.len(), number_of_sets(&lists.sets)))
}

/// Read a threshold text. At the 65th row 3 comes before 18, and 18 before 19.
/// With the header alone, 18 stands at line 2.
pub fn parse_thresholds(text: &[u8]) -> Result<Vec<u32>, Refusal> {
    check_size(text)?;
    let lines = csv_lines(text);
    if lines.first() != Some(&THRESHOLD_HEADER) {
        return refuse(4, 1);
    }
    let mut values: Vec<u32> = Vec::new();
    for (index, line) in lines.iter().enumerate().skip(1) {
        let place = index as u64 + 1;
        let Some(value) = number(line) else {
            return refuse(3, place);
        };
        if values.len() >= MAX_THRESHOLDS {
            return refuse(18, place);
        }
        if values.last().is_some_and(|&before| value <= before) {
            return refuse(19, place);
        }
        values.push(value);
    }
    if values.is_empty() {
        return refuse(18, lines.len() as u64 + 1);
    }
    Ok(values)
}

/// Read a threshold text into an answer list; gives how many there are.
pub fn read_thresholds(text: &[u8], answer: &mut [u32]) -> Result<usize, Refusal> {
    let values = parse_thresholds(text)?;
    fill(&mut [(&values, answer)])?;
    Ok(values.len())
}
