//! Readers of damaged texts against a second, slower reading that looks at
//! every prefix.

mod common;

use common::*;
use reference::lists::{check_network, Refusal};
use reference::random::{self, Rng};
use reference::table::run;
use reference::text::*;

fn refused<T>(number: u32, place: u64) -> Result<T, Refusal> {
    Err(Refusal { number, place })
}

/// A slow second reader of .gr lines: by words and by whole-history rules.
fn slow_network(text: &[u8]) -> Option<Refusal> {
    if text.len() > 60_000 {
        return Some(Refusal { number: 1, place: 0 });
    }
    let mut body = text;
    if body.ends_with(b"\n") {
        body = &body[..body.len() - 1];
    }
    let lines: Vec<&[u8]> = if text.is_empty() { vec![] } else { body.split(|&b| b == b'\n').collect() };
    let words = |line: &[u8]| line.split(|&b| b == b' ').map(|w| String::from_utf8_lossy(w).into_owned()).collect::<Vec<_>>();
    let value = |word: &str| -> Option<u64> {
        let n: u64 = word.parse().ok()?;
        (n.to_string() == word && n <= 4_294_967_295).then_some(n)
    };
    let values = |line: &[u8], from: usize| -> Option<Vec<u64>> { words(line)[from..].iter().map(|w| value(w)).collect() };
    let is = |line: &[u8], word: &str| words(line)[0] == word;
    let mut head: Option<Vec<u64>> = None;
    let mut arcs: Vec<Vec<u64>> = vec![];
    for (k, line) in lines.iter().enumerate() {
        let mut told: Vec<u32> = vec![];
        let w = words(line);
        if is(line, "c") {
            continue;
        } else if is(line, "p") && w.len() == 4 && w[1] == "sp" && values(line, 2).is_some() {
            let v = values(line, 2).unwrap();
            if head.is_some() {
                told.push(5);
            }
            if v[0] < 1 || v[0] > 512 || v[1] % 2 != 0 || v[1] < 2 || v[1] > 2_048 {
                told.push(6);
            }
            head = Some(v);
        } else if is(line, "a") && w.len() == 4 && values(line, 1).is_some() {
            let v = values(line, 1).unwrap();
            let (nodes, most) = head.as_ref().map_or((0, 0), |h| (h[0], h[1]));
            if head.is_none() {
                told.push(5);
            }
            if v[..2].iter().any(|&n| n < 1 || n > nodes) {
                told.push(7);
            }
            if v[2] < 1 || v[2] > 1_000_000 {
                told.push(9);
            }
            if arcs.len() % 2 == 1 && arcs[arcs.len() - 1] != [v[1], v[0], v[2]] {
                told.push(10);
            }
            if arcs.len() as u64 >= most {
                told.push(11);
            }
            arcs.push(v);
        } else {
            told.push(3);
        }
        if let Some(&number) = told.iter().min() {
            return Some(Refusal { number, place: k as u64 + 1 });
        }
    }
    let place = lines.len() as u64 + 1;
    match head {
        None => Some(Refusal { number: 5, place }),
        Some(h) if (arcs.len() as u64) < h[1] => Some(Refusal { number: 11, place }),
        Some(_) => None,
    }
}

#[test]
fn damaged_network_texts() {
    let mut rng = Rng::new(32);
    let mut seen = [0u32; 20];
    for _ in 0..30_000 {
        let input = random::network(&mut rng, 5, 4, 9);
        let mut text = random::network_text(&mut rng, &input);
        if rng.once_in(2) {
            text = random::damage_bytes(&mut rng, &text);
        }
        if rng.once_in(2) {
            text = random::damage_lines(&mut rng, &text, false);
        }
        if rng.once_in(500) {
            let size = random::size_near_limit(&mut rng);
            text = random::stretch_gr(&text, size);
        }
        let told = parse_network(&text);
        let expected = slow_network(&text);
        assert_eq!(told.as_ref().err().copied(), expected, "{:?}", String::from_utf8_lossy(&text));
        seen[expected.map_or(0, |refusal| refusal.number as usize)] += 1;
        if let Ok(lists) = told {
            assert_eq!(check_network(lists.nodes, &lists.firsts, &lists.seconds, &lists.lengths), Ok(()));
        }
    }
    for number in [0, 1, 3, 5, 6, 7, 9, 10, 11] {
        assert!(seen[number] > 0, "no case met {number}: {seen:?}");
    }
}

#[test]
fn good_texts_come_back() {
    let mut rng = Rng::new(33);
    for _ in 0..2_000 {
        let input = random::network(&mut rng, 9, 9, 1_000_000);
        let lists = parse_network(&random::network_text(&mut rng, &input)).unwrap();
        assert_eq!((lists.nodes, &lists.firsts), (input.nodes, &input.firsts));
        assert_eq!((&lists.seconds, &lists.lengths), (&input.seconds, &input.lengths));
        let (count, per_set) = (rng.between(1, 32), rng.index(9));
        let reports = random::reports(&mut rng, &input, count, per_set, 0);
        let text = random::reports_text(&mut rng, &reports);
        let rows = parse_reports(&text, input.nodes, &input.firsts, &input.seconds, &input.lengths).unwrap();
        assert_eq!((rows.sets, rows.legs, rows.offsets), (reports.sets, reports.legs, reports.offsets));
        let values = random::thresholds(&mut rng, 64, 9_999_999);
        assert_eq!(parse_thresholds(&random::thresholds_text(&mut rng, &values)), Ok(values));
    }
}

/// A slow second reader of CSV lines.
fn slow_csv(text: &[u8], header: &str, mut row: impl FnMut(&[u64]) -> Vec<u32>, fields: usize) -> Result<u64, Refusal> {
    if text.len() > 60_000 {
        return refused(1, 0);
    }
    // Each byte is one char, so nothing is lost.
    let text: String = text.iter().map(|&b| b as char).collect();
    let mut lines: Vec<&str> = text.split("\r\n").collect();
    if lines.last() == Some(&"") {
        lines.pop();
    }
    if lines.is_empty() || lines[0] != header {
        return refused(4, 1);
    }
    for (k, line) in lines.iter().enumerate().skip(1) {
        let values: Option<Vec<u64>> = line
            .split(',')
            .map(|word| word.parse().ok().filter(|n: &u64| n.to_string() == word && *n <= 4_294_967_295))
            .collect();
        let told = match values {
            Some(values) if values.len() == fields => row(&values),
            _ => vec![3],
        };
        if let Some(&number) = told.iter().min() {
            return refused(number, k as u64 + 1);
        }
    }
    Ok(lines.len() as u64)
}

#[test]
fn damaged_csv_texts() {
    let mut rng = Rng::new(34);
    let mut seen = [0u32; 20];
    for _ in 0..30_000 {
        let input = random::network(&mut rng, 5, 4, 9);
        let (count, per_set) = (rng.between(1, 4), rng.index(4));
        let reports = random::reports(&mut rng, &input, count, per_set, 0);
        let mut text = random::reports_text(&mut rng, &reports);
        let mut values = random::thresholds(&mut rng, 70, 90);
        if rng.once_in(4) {
            random::damage_thresholds(&mut rng, &mut values);
        }
        let mut other = random::thresholds_text(&mut rng, &values);
        if rng.once_in(2) {
            text = random::damage_bytes(&mut rng, &text);
            other = random::damage_bytes(&mut rng, &other);
        }
        if rng.once_in(2) {
            text = random::damage_lines(&mut rng, &text, true);
            other = random::damage_lines(&mut rng, &other, true);
        }
        if rng.once_in(500) {
            let size = random::size_near_limit(&mut rng);
            text = random::long_reports(&mut rng, 0, size);
            other = [&b"threshold\r\n"[..], &vec![b'1'; size - 11]].concat();
        }

        let mut sets: Vec<u64> = vec![];
        let lengths = &input.lengths;
        let expected = slow_csv(
            &text,
            "set,leg,offset",
            |v| {
                let mut told = vec![];
                sets.push(v[0]);
                if v[0] > 31 {
                    told.push(12);
                }
                if v[1] < 1 || v[1] > lengths.len() as u64 {
                    told.push(13);
                } else if v[2] > u64::from(lengths[v[1] as usize - 1]) {
                    told.push(14);
                }
                if sets.len() > 8_192 {
                    told.push(15);
                }
                told
            },
            3,
        );
        let expected = expected.and_then(|_| {
            let size = |set: u64| sets.iter().filter(|&&s| s == set).count();
            match (1..=sets.iter().copied().max().unwrap_or(0)).find(|&set| size(set) != size(0)) {
                Some(set) => refused(16, set),
                None => Ok(()),
            }
        });
        let told = parse_reports(&text, input.nodes, &input.firsts, &input.seconds, &input.lengths);
        assert_eq!(told.map(|_| ()), expected, "{:?}", String::from_utf8_lossy(&text));
        seen[expected.err().map_or(0, |refusal| refusal.number as usize)] += 1;

        let mut values: Vec<u64> = vec![];
        let expected = slow_csv(
            &other,
            "threshold",
            |v| {
                let mut told = vec![];
                if values.last().is_some_and(|&old| v[0] <= old) {
                    told.push(19);
                }
                values.push(v[0]);
                if values.len() > 64 {
                    told.push(18);
                }
                told
            },
            1,
        );
        let expected = expected.and_then(|lines| if values.is_empty() { refused(18, lines + 1) } else { Ok(()) });
        assert_eq!(parse_thresholds(&other).map(|_| ()), expected, "{:?}", String::from_utf8_lossy(&other));
        seen[expected.err().map_or(0, |refusal| refusal.number as usize)] += 1;
    }
    for number in [0, 1, 3, 4, 12, 13, 14, 15, 16, 18, 19] {
        assert!(seen[number] > 0, "no case met {number}: {seen:?}");
    }
}

#[test]
fn any_bytes_are_answered() {
    let mut rng = Rng::new(35);
    for _ in 0..5_000 {
        let noise = |rng: &mut Rng| {
            let size = rng.index(60);
            (0..size).map(|_| rng.below(256) as u8).collect::<Vec<u8>>()
        };
        let (a, b, c) = (noise(&mut rng), noise(&mut rng), noise(&mut rng));
        let mut texts = [FULL_NETWORK.to_vec(), FULL_REPORTS.to_vec(), FULL_THRESHOLDS.to_vec()];
        let at = rng.index(3);
        texts[at] = random::damage_bytes(&mut rng, &texts[at]);
        for out in [run(&a, &b, &c), run(&texts[0], &texts[1], &texts[2])] {
            assert!(out.ends_with("\r\n"));
            assert!(out.starts_with("threshold,observed,least,greatest\r\n") || out.starts_with("refused,"));
        }
    }
}
