//! Texts of good lists.

use super::{NetworkInput, ReportInput, Rng};
use crate::text::{MAX_TEXT, REPORT_HEADER, THRESHOLD_HEADER};

/// A .gr text of network lists, now and then with remarks and without its last
/// line feed.
pub fn network_text(rng: &mut Rng, input: &NetworkInput) -> Vec<u8> {
    let mut text = String::new();
    let remark = |rng: &mut Rng, text: &mut String| {
        if rng.once_in(6) {
            text.push_str(rng.pick(&["c\n", "c \n", "c a 1 2 3\n", "c   two  spaces\r\n", "c p sp 1 2\n"], "c\n"));
        }
    };
    remark(rng, &mut text);
    text.push_str(&format!("p sp {} {}\n", input.nodes, 2 * input.lengths.len()));
    for ((first, second), length) in input.firsts.iter().zip(&input.seconds).zip(&input.lengths) {
        remark(rng, &mut text);
        text.push_str(&format!("a {first} {second} {length}\n"));
        remark(rng, &mut text);
        text.push_str(&format!("a {second} {first} {length}\n"));
    }
    remark(rng, &mut text);
    if rng.once_in(4) {
        text.pop();
    }
    text.into_bytes()
}

/// A report text, now and then without its last line end.
pub fn reports_text(rng: &mut Rng, input: &ReportInput) -> Vec<u8> {
    let mut text = REPORT_HEADER.to_vec();
    text.extend(b"\r\n");
    for ((set, leg), offset) in input.sets.iter().zip(&input.legs).zip(&input.offsets) {
        text.extend(format!("{set},{leg},{offset}\r\n").bytes());
    }
    drop_last_end(rng, &mut text);
    text
}

/// A threshold text, now and then without its last line end.
pub fn thresholds_text(rng: &mut Rng, values: &[u32]) -> Vec<u8> {
    let mut text = THRESHOLD_HEADER.to_vec();
    text.extend(b"\r\n");
    for value in values {
        text.extend(format!("{value}\r\n").bytes());
    }
    drop_last_end(rng, &mut text);
    text
}

fn drop_last_end(rng: &mut Rng, text: &mut Vec<u8>) {
    if rng.once_in(4) {
        text.truncate(text.len() - 2);
    }
}

/// A .gr text stretched with remarks to just so many bytes. Too long a text is
/// given back as it is.
pub fn stretch_gr(text: &[u8], size: usize) -> Vec<u8> {
    let mut out = text.to_vec();
    if out.len() >= size {
        return out;
    }
    if !out.is_empty() && out.last() != Some(&b'\n') {
        out.push(b'\n');
    }
    // Remarks of 2 bytes or more; the last one takes what is left.
    while size.saturating_sub(out.len()) > 80 {
        out.extend(b"c a remark that only takes room\n");
    }
    let left = size.saturating_sub(out.len());
    match left {
        0 => {}
        1 => out.push(b'c'),
        2 => out.extend(b"c\n"),
        _ => {
            out.extend(b"c ");
            out.extend(std::iter::repeat_n(b'x', left - 3));
            out.push(b'\n');
        }
    }
    out
}

/// A report text of set 0 of just so many bytes (at least 16 + 7), rows of 7
/// bytes and longer on leg 1, good as long as leg 1 is `length` long and the
/// reports are not too many.
pub fn long_reports(rng: &mut Rng, length: u32, size: usize) -> Vec<u8> {
    let mut text = REPORT_HEADER.to_vec();
    text.extend(b"\r\n");
    let digits = |value: u32| value.to_string().len();
    while text.len() < size {
        let left = size - text.len();
        let offset = rng.between(0, length);
        let row = 6 + digits(offset);
        // The last rows must come out even: 7 to 13 bytes can be one row.
        if left >= row + 7 {
            text.extend(format!("0,1,{offset}\r\n").bytes());
        } else if left >= 14 {
            text.extend(b"0,1,0\r\n");
        } else if left >= 7 && 10u64.pow(left as u32 - 7) <= u64::from(length) {
            let offset = if left == 7 { 0 } else { 10u64.pow(left as u32 - 7) };
            text.extend(format!("0,1,{offset}\r\n").bytes());
        } else if left >= 7 {
            // The leg is too short for so long an offset: leave it uneven.
            text.extend(b"0,1,0\r\n");
            break;
        } else {
            break;
        }
    }
    text
}

/// A size on or next to the limit of a text.
pub fn size_near_limit(rng: &mut Rng) -> usize {
    MAX_TEXT - 3 + rng.index(7)
}
