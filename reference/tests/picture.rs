//! The picture of the example's table, and the script that draws it
//! (examples/draw.sh). Where gnuplot is not installed the tests that draw say so
//! and do nothing, and fail where the variable CI is set.

use std::fs;
use std::io::Write;
use std::path::{Path, PathBuf};
use std::process::{Command, Output, Stdio};

mod common;

use common::handed_over;

/// The output of a program run that had no comparison sets.
const NO_COMPARISON: &str = "threshold,observed,least,greatest\r\n100,2,,\r\n200,4,,\r\n4000,12,,\r\n";
const BAND: &str = "least to greatest of the comparison sets";

fn examples() -> PathBuf {
    Path::new(env!("CARGO_MANIFEST_DIR")).join("../examples")
}

fn example(name: &str) -> String {
    fs::read_to_string(examples().join(name)).unwrap_or_else(|error| panic!("{name}: {error}"))
}

fn installed() -> bool {
    let found = Command::new("gnuplot").arg("--version").output().is_ok_and(|out| out.status.success());
    if !found {
        assert!(std::env::var_os("CI").is_none(), "CI is set and gnuplot is not installed: nothing is drawn");
        println!("gnuplot is not installed: nothing is drawn");
    }
    found
}

fn script() -> Command {
    let mut script = Command::new("sh");
    script.arg(examples().join("draw.sh")).env_remove("GNUPLOT");
    script
}

/// Runs the script with this table as its standard input.
fn with_input(mut script: Command, table: &[u8]) -> Output {
    let mut child = script
        .stdin(Stdio::piped())
        .stdout(Stdio::piped())
        .stderr(Stdio::piped())
        .spawn()
        .expect("the script starts");
    child.stdin.take().expect("a pipe").write_all(table).expect("the script reads its input");
    child.wait_with_output().expect("the script ends")
}

/// The picture of a table, and what the script says while it draws it.
fn drawn(table: &[u8]) -> (String, String) {
    let mut script = script();
    script.args(["-", "-"]);
    let out = with_input(script, table);
    let said = String::from_utf8(out.stderr).expect("text");
    assert!(out.status.success(), "{said}");
    (String::from_utf8(out.stdout).expect("text"), said)
}

/// Each row's threshold, observed, least and greatest; empty fields are left out.
fn rows(table: &str) -> Vec<Vec<f64>> {
    let number = |field: &str| field.parse().expect("a number");
    let row = |line: &str| line.split(',').filter(|field| !field.is_empty()).map(number).collect();
    table.lines().skip(1).map(row).collect()
}

type Point = (f64, f64);

fn point(pair: &str) -> Point {
    let (x, y) = pair.split_once(',').expect("two numbers");
    (x.parse().expect("a number"), y.parse().expect("a number"))
}

/// The points of the observed line in the order drawn. The one in the legend,
/// which is above all others, is left out.
fn points(picture: &str) -> Vec<Point> {
    let mut all: Vec<Point> = picture
        .split("translate(")
        .filter_map(|part| part.split_once(") scale("))
        .filter(|(pair, _)| !pair.contains(')'))
        .map(|(pair, _)| point(pair))
        .collect();
    let top = all.iter().map(|point| point.1).fold(f64::INFINITY, f64::min);
    all.retain(|point| point.1 > top);
    all
}

/// The corners of everything that is filled.
fn corners(picture: &str) -> Vec<Point> {
    let polygons = picture.split("<polygon ").skip(1);
    let attributes = polygons.map(|part| part.split_once("points = '").or_else(|| part.split_once("points='")).expect("corners").1);
    attributes.flat_map(|text| text.split('\'').next().expect("corners").split_whitespace()).map(point).collect()
}

/// The picture's coordinates are rounded to hundredths, and a scale is found from
/// two of them.
fn near(a: Point, b: Point) -> bool {
    (a.0 - b.0).abs() < 0.1 && (a.1 - b.1).abs() < 0.1
}

/// Asserts that the line, the band and the labels of a picture are those of the
/// table. Its thresholds must span a factor that is drawn on a logarithmic scale.
fn shows(picture: &str, table: &str) {
    assert!(picture.contains("<svg") && picture.trim_end().ends_with("</svg>"), "not an SVG picture");
    for words in [">threshold (m), logarithmic scale<", ">ordered pairs of reports<", ">observed<"] {
        assert!(picture.contains(words), "the picture lacks {words}");
    }
    let described = picture.split_once("from this table:\n").expect("a description").1.split("\n</desc>").next();
    assert_eq!(described, Some(table.replace("\r\n", "\n").trim_end()), "the picture describes another table");

    let rows = rows(table);
    let points = points(picture);
    assert_eq!(points.len(), rows.len(), "a point for each threshold");
    let (first, last) = (&rows[0], &rows[rows.len() - 1]);
    let (left, right) = (points[0], points[rows.len() - 1]);
    let place = |threshold: f64, count: f64| {
        let across = (threshold / first[0]).ln() / (last[0] / first[0]).ln();
        let up = (count - first[1]) / (last[1] - first[1]);
        (left.0 + across * (right.0 - left.0), left.1 + up * (right.1 - left.1))
    };
    let corners = corners(picture);
    for (row, &point) in rows.iter().zip(&points) {
        assert!(near(point, place(row[0], row[1])), "{row:?}: the observed count is drawn at {point:?}");
        for &count in &row[2..] {
            let edge = place(row[0], count);
            assert!(corners.iter().any(|&corner| near(corner, edge)), "{row:?}: the band has no corner at {edge:?}");
        }
    }
    let has_band = first.len() == 4;
    assert_eq!(picture.contains(BAND), has_band, "the band in the legend");
    assert_eq!(!corners.is_empty(), has_band, "the band");
}

/// What a picture says of the gnuplot that drew it.
fn version(picture: &str) -> &str {
    picture.lines().find(|line| line.starts_with("<desc>")).expect("a description")
}

#[test]
fn the_stored_picture_is_of_the_stored_table() {
    shows(&example("picture.svg"), &example("expected.csv"));
}

#[test]
fn the_script_draws_the_example() {
    if !installed() {
        return;
    }
    let made = Path::new(env!("CARGO_TARGET_TMPDIR")).join("picture.svg");
    let _ = fs::remove_file(&made);
    let out = script().arg(examples().join("expected.csv")).arg(&made).output().expect("the script starts");
    assert!(out.status.success() && out.stdout.is_empty() && out.stderr.is_empty(), "{out:?}");
    let picture = fs::read_to_string(&made).expect("a picture");
    let table = example("expected.csv");
    shows(&picture, &table);
    assert!(drawn(table.as_bytes()).0 == picture, "drawn again it has other bytes");
    let stored = example("picture.svg");
    if version(&stored) == version(&picture) {
        assert!(stored == picture, "the same gnuplot draws another picture than the stored one: run examples/draw.sh");
    }
}

#[test]
fn the_script_draws_what_the_program_prints() {
    let Some(program) = handed_over("KC_PROGRAM") else { return };
    if !installed() {
        return;
    }
    let out = Command::new(program).current_dir(examples()).output().expect("the program starts");
    shows(&drawn(&out.stdout).0, &example("expected.csv"));
}

#[test]
fn there_is_no_band_without_comparison_sets() {
    if !installed() {
        return;
    }
    let (picture, said) = drawn(NO_COMPARISON.as_bytes());
    assert_eq!(said, "draw.sh: the table has no comparison sets: only the observed counts are drawn\n");
    shows(&picture, NO_COMPARISON);
}

/// One threshold, no counts, thresholds from 0, long numbers: something is drawn,
/// and nothing is said.
#[test]
fn unusual_tables_are_drawn() {
    if !installed() {
        return;
    }
    for rows in ["0,0,0,0\r\n", "5,8,6,12\r\n", "0,0,0,0\r\n1,0,0,2\r\n", "7,2,0,9\r\n4294967295,67100672,0,67100672\r\n"] {
        let (picture, said) = drawn(format!("threshold,observed,least,greatest\r\n{rows}").as_bytes());
        assert_eq!(said, "", "{rows:?}");
        assert!(picture.contains(">observed<") && picture.contains(BAND), "{rows:?}");
    }
}

/// The script gives up with this one line, and leaves the picture alone.
fn gives_up(mut script: Command, table: &str, line: &str) {
    let kept = Path::new(env!("CARGO_TARGET_TMPDIR")).join(format!("kept-{:?}.svg", std::thread::current().id()));
    fs::write(&kept, "an older picture").expect("a file");
    script.arg("-").arg(&kept);
    let out = with_input(script, table.as_bytes());
    assert_eq!(out.status.code(), Some(1), "{table:?}");
    assert_eq!(String::from_utf8_lossy(&out.stderr), format!("draw.sh: {line}\n"));
    assert!(out.stdout.is_empty());
    assert_eq!(fs::read_to_string(&kept).expect("a file"), "an older picture");
}

#[test]
fn what_is_no_table_is_not_drawn() {
    let refused = "there is no table: the program refused reports.csv with number 14 at place 7 (see Refusals in README.md)";
    gives_up(script(), "refused,reports.csv,14,7\r\n", refused);
    gives_up(script(), "", "there is no table: the input is empty");
    gives_up(script(), "set,leg,offset\r\n0,1,1\r\n", "line 1 is not the header of a table that kcount prints");
    gives_up(script(), "threshold,observed,least,greatest\r\n", "the table has no rows");
    gives_up(script(), "threshold,observed,least,greatest\r\n2,0,2,12\r\n3,4,2\r\n", "line 3 is not a row of a table that kcount prints");
    gives_up(script(), "threshold,observed,least,greatest\r\n2,0,2,12\r\n3,4,,\r\n", "line 3: only some rows have least and greatest");
}

#[test]
fn it_says_that_gnuplot_is_missing() {
    let mut script = script();
    script.env("GNUPLOT", examples().join("no-such-program"));
    let line = "gnuplot is not installed (on Debian and Ubuntu: apt-get install gnuplot-nox)";
    gives_up(script, &example("expected.csv"), line);
}
