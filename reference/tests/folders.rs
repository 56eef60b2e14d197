//! The proved program beside the plain one: the same folders, the same bytes.
//!
//! KC_PROGRAM is the path of the proved program; without it these tests say so
//! and do nothing, and fail where CI is set. KC_FOLDERS is the number of random
//! folders (400 if it is not set; 20000 takes a minute or two, and from 5000 on
//! every refusal is met).

mod common;

use std::collections::BTreeSet;
use std::fs;
use std::path::Path;
use std::process::Command;

use common::program::*;
use common::*;
use reference::lists::{MAX_LENGTH, MAX_REPORTS};
use reference::random::{self, Rng, Shape, Spread, Spread::Even, Spread::Far, Spread::Short};
use reference::table::FILES;
use reference::text::MAX_TEXT;

/// What a program prints in the folder, and nothing else.
fn printed(program: impl AsRef<std::ffi::OsStr>, folder: &Path) -> Vec<u8> {
    let out = Command::new(program).current_dir(folder).output().expect("it runs");
    assert!(out.status.success(), "{:?}", out.status);
    assert!(out.stderr.is_empty(), "{}", String::from_utf8_lossy(&out.stderr));
    out.stdout
}

/// Both programs in one folder.
fn compare(proved: &Path, folder: &Path, files: &[File; 3]) -> String {
    lay(folder, files);
    let told = printed(proved, folder);
    let expected = printed(env!("CARGO_BIN_EXE_kcount_reference"), folder);
    if told != expected {
        // The folder stays as it is, to be looked at.
        panic!(
            "{}: the proved program prints {:?}, the plain one {:?}",
            folder.display(),
            String::from_utf8_lossy(&told),
            String::from_utf8_lossy(&expected)
        );
    }
    String::from_utf8(told).expect("text")
}

/// Each refusal by itself, with the line that the scope paper asks for.
#[test]
fn each_refusal() {
    let Some(proved) = program() else { return };
    let folder = folder("each_refusal");
    let full = [FULL_NETWORK, FULL_REPORTS, FULL_THRESHOLDS];
    assert_eq!(compare(&proved, &folder, &full.map(text)), FULL_OUTPUT);
    let networks: &[(&[u8], &str)] = &[
        (b"", "5,1"),
        (b"c\n", "5,2"),
        (b"\n", "3,1"),
        (b"p sp 2 2\na 1 2 5\nx\n", "3,3"),
        (b"p sp 2 2\na 1 2 05\na 2 1 5\n", "3,2"),
        (b"p sp 2 2\na 1  2 5\na 2 1 5\n", "3,2"),
        (b"p sp 2 4294967296\n", "3,1"),
        (b"a 1 2 5\np sp 2 2\n", "5,1"),
        (b"p sp 2 2\np sp 2 2\n", "5,2"),
        (b"p sp 0 2\n", "6,1"),
        (b"p sp 513 2\n", "6,1"),
        (b"p sp 2 3\n", "6,1"),
        (b"p sp 2 0\n", "6,1"),
        (b"p sp 2 2050\n", "6,1"),
        (b"p sp 2 2\na 0 2 5\n", "7,2"),
        (b"p sp 2 2\na 1 3 5\n", "7,2"),
        (b"p sp 2 2\na 2 2 0\n", "9,2"),
        (b"p sp 2 2\na 1 2 0\n", "9,2"),
        (b"p sp 2 2\na 1 2 1000001\n", "9,2"),
        (b"p sp 2 2\na 1 2 5\nc\na 1 2 5\n", "10,4"),
        (b"p sp 2 2\na 1 2 5\na 2 1 6\n", "10,3"),
        (b"p sp 2 2\na 1 1 5\na 1 1 6\n", "10,3"),
        (b"p sp 2 2\na 1 1 5\na 2 2 5\n", "10,3"),
        (b"p sp 2 2\na 1 2 5\na 2 1 5\na 1 2 5\n", "11,4"),
        (b"p sp 2 4\na 1 2 5\na 2 1 5\n", "11,4"),
        (b"p sp 2 2\na 1 2 5\n", "11,3"),
    ];
    for (bytes, at) in networks {
        let told = compare(&proved, &folder, &[text(bytes), text(FULL_REPORTS), text(FULL_THRESHOLDS)]);
        assert_eq!(told, format!("refused,network.gr,{at}\r\n"), "{:?}", String::from_utf8_lossy(bytes));
    }
    let reports: &[(&[u8], &str)] = &[
        (b"", "4,1"),
        (b"set,leg,offset\n0,1,1\n", "4,1"),
        (b"Set,leg,offset\r\n", "4,1"),
        (b"set,leg,offset\r\n0,1\r\n", "3,2"),
        (b"set,leg,offset\r\n0,1,1\r\n\r\n", "3,3"),
        (b"set,leg,offset\r\n0,1,1\r\n\"0\",1,1\r\n", "3,3"),
        (b"set,leg,offset\r\n0,1,1\r", "3,2"),
        (b"set,leg,offset\r\n32,1,1\r\n", "12,2"),
        (b"set,leg,offset\r\n0,0,1\r\n", "13,2"),
        (b"set,leg,offset\r\n0,5,1\r\n", "13,2"),
        (b"set,leg,offset\r\n0,1,5\r\n0,1,6\r\n", "14,3"),
        (b"set,leg,offset\r\n0,1,5\r\n2,1,1\r\n", "16,1"),
        (b"set,leg,offset\r\n3,1,1\r\n", "16,3"),
    ];
    for (bytes, at) in reports {
        let told = compare(&proved, &folder, &[text(FULL_NETWORK), text(bytes), text(FULL_THRESHOLDS)]);
        assert_eq!(told, format!("refused,reports.csv,{at}\r\n"), "{:?}", String::from_utf8_lossy(bytes));
    }
    let thresholds: &[(&[u8], &str)] = &[
        (b"", "4,1"),
        (b"thresholds\r\n2\r\n", "4,1"),
        (b"threshold", "18,2"),
        (b"threshold\r\n", "18,2"),
        (b"threshold\r\n2 \r\n", "3,2"),
        (b"threshold\r\n00\r\n", "3,2"),
        (b"threshold\r\n4294967296\r\n", "3,2"),
        (b"threshold\r\n2\r\n2\r\n", "19,3"),
        (b"threshold\r\n3\r\n2\r\n", "19,3"),
    ];
    for (bytes, at) in thresholds {
        let told = compare(&proved, &folder, &[text(FULL_NETWORK), text(FULL_REPORTS), text(bytes)]);
        assert_eq!(told, format!("refused,thresholds.csv,{at}\r\n"), "{:?}", String::from_utf8_lossy(bytes));
    }
}

/// The bytes of a line of known.txt: `\r` and `\n` stand for a carriage return
/// and a line feed, `\60001xc` for 60,001 times c.
fn unescaped(line: &str) -> Vec<u8> {
    let mut parts = line.split('\\');
    let mut bytes = parts.next().unwrap_or("").as_bytes().to_vec();
    for part in parts {
        let (kind, behind) = part.split_at(1);
        let (meant, rest) = match kind {
            "r" => (vec![b'\r'], behind),
            "n" => (vec![b'\n'], behind),
            _ => {
                let (times, repeated) = part.split_once('x').expect("a number of times");
                let (byte, rest) = repeated.split_at(1);
                (byte.repeat(times.parse().expect("a number")).into_bytes(), rest)
            }
        };
        bytes.extend(meant);
        bytes.extend(rest.bytes());
    }
    bytes
}

/// Folders with what is printed for them written down: document 01's full run and
/// its cases that are run only among them. A case is its name, three texts and
/// what is printed, each in a line of its own; an empty line follows.
#[test]
fn known_folders() {
    let Some(proved) = program() else { return };
    let folder = folder("known_folders");
    let lines: Vec<&str> = include_str!("folders/known.txt").lines().collect();
    let cases: Vec<&[&str]> = lines.chunks(6).collect();
    assert_eq!(cases.len(), 23);
    for case in cases {
        let [name, network, reports, thresholds, printed, ..] = case else { panic!("{case:?}") };
        let files = [network, reports, thresholds].map(|line| Text(unescaped(line)));
        let told = compare(&proved, &folder, &files);
        assert_eq!(told.into_bytes(), unescaped(printed), "{name}");
    }
}

/// Sizes on both sides of each limit.
#[test]
fn limits() {
    let Some(proved) = program() else { return };
    let folder = folder("limits");
    let full = [FULL_NETWORK, FULL_REPORTS, FULL_THRESHOLDS];
    let with = |at: usize, file: File| {
        let mut files = full.map(text);
        files[at] = file;
        compare(&proved, &folder, &files)
    };
    for (at, missing) in ["refused,network.gr,5,1\r\n", "refused,reports.csv,4,1\r\n", "refused,thresholds.csv,4,1\r\n"].iter().enumerate() {
        for file in [Missing, Folder, text(b"")] {
            assert_eq!(with(at, file), *missing);
        }
        let name = FILES[at];
        assert_eq!(with(at, Text(vec![b'c'; MAX_TEXT + 1])), format!("refused,{name},1,0\r\n"));
        assert_eq!(with(at, Text(vec![b'c'; 3 * MAX_TEXT])), format!("refused,{name},1,0\r\n"));
        assert_ne!(with(at, Text(vec![b'c'; MAX_TEXT])), format!("refused,{name},1,0\r\n"));
    }
    assert_eq!(with(0, Text(random::stretch_gr(FULL_NETWORK, MAX_TEXT))), FULL_OUTPUT);
    assert_eq!(with(0, Text(random::stretch_gr(FULL_NETWORK, MAX_TEXT + 1))), "refused,network.gr,1,0\r\n");
    // A leg of 1,000,000 m and one of a metre more.
    for (length, refused) in [(MAX_LENGTH, false), (MAX_LENGTH + 1, true)] {
        let told = with(0, Text(format!("p sp 4 8\na 1 2 {length}\na 2 1 {length}\na 2 3 4\na 3 2 4\na 3 1 3\na 1 3 3\na 3 4 6\na 4 3 6\n").into_bytes()));
        assert_eq!(told == "refused,network.gr,9,2\r\n", refused);
    }
    // 8,192 reports at one place, and one more.
    for (count, refused) in [(MAX_REPORTS, false), (MAX_REPORTS + 1, true)] {
        let told = with(1, Text(format!("set,leg,offset\r\n{}", "0,1,0\r\n".repeat(count)).into_bytes()));
        let pairs = count * (count - 1);
        let table = format!("threshold,observed,least,greatest\r\n2,{pairs},,\r\n3,{pairs},,\r\n5,{pairs},,\r\n7,{pairs},,\r\n");
        assert_eq!(told, if refused { "refused,reports.csv,15,8194\r\n".to_string() } else { table });
    }
    // 32 sets, and one more.
    for (sets, refused) in [(32, false), (33, true)] {
        let rows: String = (0..sets).map(|set| format!("{set},4,3\r\n{set},4,3\r\n")).collect();
        let told = with(1, Text(format!("set,leg,offset\r\n{rows}").into_bytes()));
        let table = "threshold,observed,least,greatest\r\n2,2,2,2\r\n3,2,2,2\r\n5,2,2,2\r\n7,2,2,2\r\n";
        assert_eq!(told, if refused { "refused,reports.csv,12,66\r\n" } else { table });
    }
    // No reports at all.
    let none = "threshold,observed,least,greatest\r\n2,0,,\r\n3,0,,\r\n5,0,,\r\n7,0,,\r\n";
    assert_eq!(with(1, text(b"set,leg,offset\r\n")), none);
    // 64 thresholds and 65.
    for count in [64, 65] {
        let rows: String = (1..=count).map(|value| format!("{value}\r\n")).collect();
        let told = with(2, Text(format!("threshold\r\n{rows}").into_bytes()));
        assert_eq!(told == "refused,thresholds.csv,18,66\r\n", count == 65);
        assert_eq!(told.lines().count() == 65, count == 64);
    }
    // The greatest threshold over two parts that do not hang together.
    let apart = [
        text(b"p sp 4 4\na 1 2 5\na 2 1 5\na 3 4 5\na 4 3 5\n"),
        text(b"set,leg,offset\r\n0,1,0\r\n0,1,5\r\n0,2,5\r\n"),
        text(b"threshold\r\n4\r\n4294967295"),
    ];
    assert_eq!(compare(&proved, &folder, &apart), "threshold,observed,least,greatest\r\n4,0,,\r\n4294967295,2,,\r\n");
}

/// The largest counts that fit into texts of 60,000 bytes.
#[test]
fn large_folders() {
    let Some(proved) = program() else { return };
    let folder = folder("large_folders");
    let mut rng = Rng::new(301);
    // Spread over all legs and crowded on few, so that each method has its turn.
    for (nodes, legs, sets, per_set, on_legs, thresholds, spread) in [
        (512, 1_024, 32, 150, 0, 64, Even),
        (512, 1_024, 1, 4_700, 0, 64, Even),
        (512, 1_024, 1, 4_700, 0, 64, Short),
        (512, 1_024, 1, 4_700, 0, 64, Far),
        (512, 1_024, 1, 4_700, 0, 2, Even),
        (512, 1_024, 1, 4_700, 9, 64, Even),
        (512, 1_024, 1, 4_700, 9, 64, Short),
        (512, 1_024, 1, 4_700, 9, 64, Far),
        (512, 1_024, 1, 4_700, 3, 64, Even),
        (40, 60, 32, 160, 4, 64, Even),
        (40, 60, 32, 160, 4, 3, Short),
        (40, 60, 4, 1_000, 12, 6, Far),
    ] {
        let input = random::ring_with_loops(&mut rng, nodes, legs, legs / 10, 1_000);
        let reports = random::reports(&mut rng, &input, sets, per_set, on_legs);
        let files = [
            Text(random::network_text(&mut rng, &input)),
            Text(random::reports_text(&mut rng, &reports)),
            Text(random::thresholds_text(&mut rng, &spread.thresholds(thresholds, 1_000))),
        ];
        let told = compare(&proved, &folder, &files);
        assert!(told.starts_with("threshold,"), "{told}");
    }
}

/// Networks of every shape, with loops, and thresholds of every spread, on all
/// legs and on few.
#[test]
fn every_shape() {
    let Some(proved) = program() else { return };
    let folder = folder("every_shape");
    let mut rng = Rng::new(303);
    for shape in Shape::ALL {
        for spread in Spread::ALL {
            for (sets, per_set, on_legs, thresholds) in [(1, 2_000, 0, 64), (3, 600, 7, 5)] {
                let length = rng.pick(&[9, 400, 20_000], 9);
                let mut input = shape.network(&mut rng, 120, length);
                random::add_loops(&mut rng, &mut input, 20, length);
                let reports = random::reports(&mut rng, &input, sets, per_set, on_legs);
                let files = [
                    Text(random::network_text(&mut rng, &input)),
                    Text(random::reports_text(&mut rng, &reports)),
                    Text(random::thresholds_text(&mut rng, &spread.thresholds(thresholds, length))),
                ];
                let told = compare(&proved, &folder, &files);
                assert!(told.starts_with("threshold,"), "{told}");
            }
        }
    }
}

/// A file as written, damaged by bytes or by lines, of a size near the limit,
/// empty, missing or a folder.
fn file(rng: &mut Rng, written: Vec<u8>, damaged: bool, csv: bool) -> File {
    if !damaged {
        return Text(written);
    }
    match rng.below(20) {
        0 => Missing,
        1 => Folder,
        2 => Text(Vec::new()),
        3 => {
            let size = random::size_near_limit(rng);
            Text(if csv {
                let mut long = written;
                long.resize(size, b'1');
                long
            } else {
                random::stretch_gr(&written, size)
            })
        }
        4..=10 => Text(random::damage_bytes(rng, &written)),
        _ => Text(random::damage_lines(rng, &written, csv)),
    }
}

/// The refusals that each file can meet.
const REFUSALS: [&[u32]; 3] = [&[1, 3, 5, 6, 7, 9, 10, 11], &[1, 3, 4, 12, 13, 14, 15, 16], &[1, 3, 4, 18, 19]];

#[test]
fn random_folders() {
    let Some(proved) = program() else { return };
    let turns = match std::env::var("KC_FOLDERS") {
        Ok(number) => number.parse().expect("KC_FOLDERS is a number"),
        Err(_) => 400,
    };
    let folder = folder("random_folders");
    let mut rng = Rng::new(302);
    let mut met = BTreeSet::new();
    for _ in 0..turns {
        let length = rng.pick(&[1, 3, 9, 40, 5_000, MAX_LENGTH], 9);
        let mut input = random::network(&mut rng, 9, 14, length);
        // Few reports, which go by the range query, or enough for a choice.
        let (sets, per_set) = if rng.once_in(8) { (rng.between(1, 3), 300 + rng.index(300)) } else { (rng.between(1, 6), rng.index(12)) };
        let on_legs = rng.index(5);
        let mut reports = random::reports(&mut rng, &input, sets, per_set, on_legs);
        let mut thresholds = random::thresholds(&mut rng, 64, length.saturating_mul(4));
        // None, one or several of the files are damaged, in their numbers or
        // in their bytes.
        let damaged = rng.pick(&[0, 0, 1, 2, 2, 4, 4, 6, 7], 0);
        let in_numbers = rng.once_in(3);
        if damaged & 1 != 0 && in_numbers {
            random::damage_network(&mut rng, &mut input);
        }
        if damaged & 2 != 0 && in_numbers {
            random::damage_reports(&mut rng, &mut reports);
        }
        if damaged & 4 != 0 && in_numbers {
            random::damage_thresholds(&mut rng, &mut thresholds);
        }
        let texts = [
            random::network_text(&mut rng, &input),
            random::reports_text(&mut rng, &reports),
            random::thresholds_text(&mut rng, &thresholds),
        ];
        let mut at = 0;
        let files = texts.map(|written| {
            at += 1;
            let in_bytes = damaged & (1 << (at - 1)) != 0 && !in_numbers;
            file(&mut rng, written, in_bytes, at > 1)
        });
        let told = compare(&proved, &folder, &files);
        // A table has no number; a refusal is known by its file and number.
        let refusal: Vec<&str> = told.trim_end().split(',').skip(1).take(2).collect();
        met.insert(if told.starts_with("refused,") { refusal.join(" ") } else { "table".to_string() });
    }
    println!("{turns} folders: {met:?}");
    // Tables, and refusals of all three files, of several kinds each; of every
    // kind where there are many folders.
    assert!(turns < 400 || met.contains("table"), "{met:?}");
    for (name, numbers) in FILES.into_iter().zip(REFUSALS) {
        let kinds: BTreeSet<u32> = met.iter().filter_map(|refusal| refusal.strip_prefix(name)?.trim().parse().ok()).collect();
        assert!(turns < 400 || kinds.len() >= 3, "{name}: {met:?}");
        assert!(turns < 5_000 || kinds == numbers.iter().copied().collect(), "{name}: {met:?}");
    }
}

/// The example folder.
#[test]
fn the_estuary() {
    let Some(proved) = program() else { return };
    let examples = Path::new(env!("CARGO_MANIFEST_DIR")).join("../examples");
    let expected = fs::read(examples.join("expected.csv")).expect("the expected table");
    assert!(printed(proved, &examples) == expected);
}
