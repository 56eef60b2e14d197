//! Times the proved program beside the plain one on the same folders:
//! `program_bench PROVED PLAIN FOLDER [WORD]` makes the folders in FOLDER, runs
//! both programs in each by turns, checks that they print the same bytes, and
//! prints the least time on the processor and the peak memory of each. The
//! plain one runs by whichever of its methods is fastest in that folder. WORD
//! leaves only the lines that have it; with the word `limits` or `mixed` the
//! folders are others, some 300 at the limits, each for a shorter time: the
//! first over rings, the second over networks of all shapes, drawn at random.

mod folder;

use std::fs;
use std::io;
use std::path::{Path, PathBuf};

use folder::{run, Run};
use reference::counts::Method;
use reference::random::{self, Gathered, Gathering, Rng, Shape, Spread, Spread::Even, Spread::Far, Spread::Short};
use reference::text::MAX_TEXT;

struct Case {
    what: &'static str,
    nodes: u32,
    legs: usize,
    /// Of what shape the network is, which settles its legs; if of none, it is
    /// a ring with so many.
    shape: Option<Shape>,
    /// No leg is longer; short ones leave room for more rows in a text.
    longest: u32,
    sets: u32,
    per_set: usize,
    /// 0 for all legs.
    on_legs: usize,
    /// How reports gather on some of all legs; if in no way, each leg that has
    /// any is as likely as another.
    gathering: Option<Gathering>,
    thresholds: usize,
    spread: Spread,
}

#[rustfmt::skip]
const CASES: [Case; 30] = [
    Case { what: "tiny", nodes: 4, legs: 4, shape: None, longest: 9, sets: 3, per_set: 4, on_legs: 0, gathering: None, thresholds: 4, spread: Even },
    Case { what: "reports 0", nodes: 512, legs: 1_024, shape: None, longest: 999, sets: 1, per_set: 900, on_legs: 0, gathering: None, thresholds: 64, spread: Even },
    Case { what: "reports 1", nodes: 512, legs: 1_024, shape: None, longest: 999, sets: 1, per_set: 1_000, on_legs: 0, gathering: None, thresholds: 64, spread: Even },
    Case { what: "reports 2", nodes: 512, legs: 1_024, shape: None, longest: 999, sets: 1, per_set: 2_000, on_legs: 0, gathering: None, thresholds: 64, spread: Even },
    Case { what: "reports 3", nodes: 512, legs: 1_024, shape: None, longest: 999, sets: 1, per_set: 4_000, on_legs: 0, gathering: None, thresholds: 64, spread: Even },
    Case { what: "reports 4", nodes: 512, legs: 1_024, shape: None, longest: 9, sets: 1, per_set: 6_600, on_legs: 0, gathering: None, thresholds: 64, spread: Even },
    Case { what: "legs 1", nodes: 32, legs: 64, shape: None, longest: 999, sets: 1, per_set: 5_000, on_legs: 0, gathering: None, thresholds: 64, spread: Even },
    Case { what: "legs 2", nodes: 128, legs: 256, shape: None, longest: 999, sets: 1, per_set: 5_000, on_legs: 0, gathering: None, thresholds: 64, spread: Even },
    Case { what: "legs 3", nodes: 512, legs: 1_024, shape: None, longest: 999, sets: 1, per_set: 5_000, on_legs: 0, gathering: None, thresholds: 64, spread: Even },
    Case { what: "thresholds 1", nodes: 512, legs: 1_024, shape: None, longest: 999, sets: 1, per_set: 5_000, on_legs: 0, gathering: None, thresholds: 1, spread: Even },
    Case { what: "thresholds 2", nodes: 512, legs: 1_024, shape: None, longest: 999, sets: 1, per_set: 5_000, on_legs: 0, gathering: None, thresholds: 8, spread: Even },
    Case { what: "thresholds 3", nodes: 512, legs: 1_024, shape: None, longest: 9, sets: 1, per_set: 6_600, on_legs: 0, gathering: None, thresholds: 8, spread: Far },
    Case { what: "far threshold 1", nodes: 512, legs: 1_024, shape: None, longest: 9, sets: 1, per_set: 6_600, on_legs: 0, gathering: None, thresholds: 64, spread: Far },
    Case { what: "far threshold 2", nodes: 512, legs: 1_024, shape: None, longest: 999, sets: 1, per_set: 5_000, on_legs: 0, gathering: None, thresholds: 64, spread: Far },
    Case { what: "far threshold 3", nodes: 512, legs: 1_024, shape: None, longest: 999, sets: 1, per_set: 6_500, on_legs: 9, gathering: None, thresholds: 64, spread: Far },
    Case { what: "short thresholds 1", nodes: 512, legs: 1_024, shape: None, longest: 999, sets: 1, per_set: 5_000, on_legs: 0, gathering: None, thresholds: 64, spread: Short },
    Case { what: "short thresholds 2", nodes: 512, legs: 1_024, shape: None, longest: 999, sets: 1, per_set: 6_500, on_legs: 9, gathering: None, thresholds: 64, spread: Short },
    Case { what: "short thresholds 3", nodes: 512, legs: 1_024, shape: None, longest: 9, sets: 1, per_set: 8_192, on_legs: 9, gathering: None, thresholds: 8, spread: Short },
    Case { what: "short thresholds 4", nodes: 512, legs: 1_024, shape: None, longest: 999_999, sets: 1, per_set: 4_000, on_legs: 9, gathering: None, thresholds: 64, spread: Short },
    Case { what: "32 sets", nodes: 512, legs: 1_024, shape: None, longest: 999, sets: 32, per_set: 155, on_legs: 0, gathering: None, thresholds: 64, spread: Even },
    Case { what: "few legs 1", nodes: 512, legs: 1_024, shape: None, longest: 9, sets: 1, per_set: 8_192, on_legs: 9, gathering: None, thresholds: 64, spread: Even },
    Case { what: "few legs 2", nodes: 512, legs: 1_024, shape: None, longest: 9, sets: 1, per_set: 8_192, on_legs: 9, gathering: None, thresholds: 8, spread: Even },
    Case { what: "few legs 3", nodes: 512, legs: 1_024, shape: None, longest: 999, sets: 1, per_set: 6_500, on_legs: 9, gathering: None, thresholds: 64, spread: Even },
    Case { what: "few legs 4", nodes: 512, legs: 1_024, shape: None, longest: 9, sets: 32, per_set: 240, on_legs: 9, gathering: None, thresholds: 64, spread: Even },
    Case { what: "few legs 5", nodes: 512, legs: 1_024, shape: None, longest: 9, sets: 32, per_set: 240, on_legs: 9, gathering: None, thresholds: 1, spread: Even },
    Case { what: "one leg 1", nodes: 512, legs: 1_024, shape: None, longest: 9, sets: 1, per_set: 8_192, on_legs: 1, gathering: None, thresholds: 64, spread: Even },
    Case { what: "one leg 2", nodes: 512, legs: 1_024, shape: None, longest: 9, sets: 32, per_set: 240, on_legs: 1, gathering: None, thresholds: 64, spread: Even },
    Case { what: "loops 1", nodes: 512, legs: 1_024, shape: Some(Shape::Basins), longest: 999, sets: 1, per_set: 5_000, on_legs: 0, gathering: None, thresholds: 64, spread: Even },
    Case { what: "loops 2", nodes: 512, legs: 1_024, shape: Some(Shape::Basins), longest: 9, sets: 1, per_set: 8_192, on_legs: 9, gathering: None, thresholds: 64, spread: Even },
    Case { what: "loops 3", nodes: 512, legs: 1_024, shape: Some(Shape::Basins), longest: 999, sets: 32, per_set: 155, on_legs: 0, gathering: None, thresholds: 64, spread: Even },
];

/// A line of reports that gather.
fn gathered(line: Gathered) -> Case {
    Case {
        what: line.name,
        nodes: Gathered::NODES,
        legs: Gathered::LEGS,
        shape: None,
        longest: Gathered::LONGEST,
        sets: line.sets,
        per_set: line.per_set,
        on_legs: 0,
        gathering: Some(line.gathering),
        thresholds: line.thresholds,
        spread: line.spread,
    }
}

/// What a line of this word is of.
const LIMITS: &str = "limits";

/// As many reports as a text holds on one leg, some and all of them, of every
/// length, with few and many thresholds of every spread.
fn limits() -> Vec<Case> {
    let mut cases = Vec::new();
    for on_legs in [1, 3, 9, 30, 100, 0] {
        for thresholds in [1, 2, 4, 8, 16, 64] {
            for spread in [Even, Short, Far] {
                for (longest, per_set) in [(9, if (1..=9).contains(&on_legs) { 8_192 } else { 6_600 }), (999, 5_000), (999_999, 4_000)] {
                    cases.push(Case { what: LIMITS, nodes: 512, legs: 1_024, shape: None, longest, sets: 1, per_set, on_legs, gathering: None, thresholds, spread });
                }
            }
        }
    }
    cases
}

/// What a line of this word is of.
const MIXED: &str = "mixed";

/// Folders drawn at random: 512 nodes, and up to as many reports as fit into a
/// text.
fn mixed() -> Vec<Case> {
    let mut rng = Rng::new(1_116);
    let mut draw = || {
        let sets = rng.pick(&[1, 1, 1, 4, 32], 1);
        Case {
            what: MIXED,
            nodes: 512,
            legs: 0,
            shape: Some(rng.pick(&Shape::ALL, Shape::Ring)),
            longest: rng.pick(&[9, 99, 999, 9_999, 999_999], 9),
            sets,
            per_set: rng.pick(&[8_192, 8_192, 4_000, 2_000], 0) / sets as usize,
            on_legs: rng.pick(&[0, 0, 0, 1, 3, 9, 9, 30, 100, 300], 0),
            gathering: None,
            thresholds: rng.pick(&[1, 2, 3, 4, 8, 16, 32, 64, 64], 1),
            spread: rng.pick(&Spread::ALL, Even),
        }
    };
    (0..300).map(|_| draw()).collect()
}

/// The first cell of a case's line.
fn label(case: &Case) -> String {
    match (case.what, case.shape) {
        (MIXED, Some(shape)) => format!("{}, legs of {}, {}", shape.name(), case.longest, case.spread.name()),
        (LIMITS, _) => format!("{LIMITS}, legs of {}, {}", case.longest, case.spread.name()),
        (what, _) if case.gathering.is_some() => format!("{what}, {}", case.spread.name()),
        (what, _) => what.to_string(),
    }
}

/// A case's folder, with the legs and the reports of a set that are in it.
struct Laid {
    folder: PathBuf,
    legs: usize,
    per_set: usize,
}

/// The folder of a case, filled. The same bytes every time. Of a mixed one as
/// many reports are left out as do not fit.
fn lay(folder: &Path, case: &Case) -> io::Result<Laid> {
    let name = format!("{} {} {}", label(case), case.on_legs, case.thresholds);
    let folder = folder.join(name.replace([' ', ','], "_"));
    let mut rng = Rng::new(2026);
    let network = match case.shape {
        Some(shape) => shape.network(&mut rng, case.nodes, case.longest),
        None => random::ring_network(&mut rng, case.nodes, case.legs, case.longest),
    };
    let draw = |rng: &mut Rng, per_set: usize| match case.gathering {
        Some(gathering) => gathering.reports(rng, &network, case.sets, per_set),
        None => random::reports(rng, &network, case.sets, per_set, case.on_legs),
    };
    let mut per_set = case.per_set;
    let mut reports = draw(&mut rng, per_set);
    while case.what == MIXED && random::reports_text(&mut Rng::new(1), &reports).len() > MAX_TEXT - 8 {
        per_set -= per_set / 50 + 1;
        reports = draw(&mut rng, per_set);
    }
    let thresholds = case.spread.thresholds(case.thresholds, case.longest);
    folder::fill(&folder, &mut rng, &network, &reports, &thresholds)?;
    Ok(Laid { folder, legs: network.lengths.len(), per_set })
}

/// The plain program's fastest method, three turns of each.
fn best(plain: &Path, folder: &Path) -> io::Result<Method> {
    let out = folder.join("plain.out");
    let mut fastest = (f64::MAX, Method::RangeQuery);
    for _ in 0..3 {
        for method in Method::ALL {
            let one = run(plain, Some(method), folder, &out)?;
            if one.time < fastest.0 {
                fastest = (one.time, method);
            }
        }
    }
    Ok(fastest.1)
}

/// Both by turns, at least 5 and up to so many milliseconds: the least time and
/// peak of each.
fn compare(programs: [(&Path, Option<Method>); 2], folder: &Path, millis: f64) -> io::Result<[Run; 2]> {
    let outs = [folder.join("proved.out"), folder.join("plain.out")];
    let mut least = [Run { time: f64::MAX, peak: i64::MAX }; 2];
    let (mut turns, mut spent) = (0, 0.0);
    while turns < 5 || (spent < millis && turns < 100) {
        for k in 0..2 {
            let (program, method) = programs[k];
            let one = run(program, method, folder, &outs[k])?;
            least[k] = Run { time: least[k].time.min(one.time), peak: least[k].peak.min(one.peak) };
            spent += one.time;
        }
        turns += 1;
    }
    let [told, expected] = [fs::read(&outs[0])?, fs::read(&outs[1])?];
    assert!(told == expected, "{}: the programs print different bytes", folder.display());
    assert!(!told.starts_with(b"refused"), "{}: refused", folder.display());
    Ok(least)
}

fn main() -> io::Result<()> {
    let mut words = std::env::args_os().skip(1);
    let (Some(proved), Some(plain), Some(folder)) = (words.next(), words.next(), words.next()) else {
        println!("program_bench PROVED PLAIN FOLDER [WORD]");
        return Ok(());
    };
    let word = words.next().and_then(|word| word.into_string().ok()).unwrap_or_default();
    let (proved, plain) = (fs::canonicalize(proved)?, fs::canonicalize(plain)?);
    println!("| Folder | nodes, legs | sets of reports | on legs | thresholds | proved, ms | plain, ms | plain by | ratio | proved, peak KB | plain, peak KB |");
    println!("|---|---|---|---|---|---|---|---|---|---|---|");
    let (cases, millis) = match word.as_str() {
        LIMITS => (limits(), 400.0),
        MIXED => (mixed(), 400.0),
        _ => {
            let lines = CASES.into_iter().chain(Gathered::ALL.map(gathered));
            (lines.filter(|case| case.what.contains(&word)).collect(), 2_000.0)
        }
    };
    let mut ratios = Vec::new();
    for case in &cases {
        let laid = lay(Path::new(&folder), case)?;
        let method = best(&plain, &laid.folder)?;
        let [a, b] = compare([(&proved, None), (&plain, Some(method))], &laid.folder, millis)?;
        let on_legs = match (case.gathering, case.on_legs) {
            (Some(gathering), _) => format!("{}, {}", laid.legs, gathering.name()),
            (None, 0) => laid.legs.to_string(),
            (None, some) => some.min(laid.legs).to_string(),
        };
        let ratio = a.time / b.time;
        println!(
            "| {} | {}, {} | {} of {} | {} | {} | {:.2} | {:.2} | {} | {ratio:.2} | {} | {} |",
            label(case), case.nodes, laid.legs, case.sets, laid.per_set, on_legs, case.thresholds,
            a.time, b.time, method.name(), a.peak, b.peak,
        );
        ratios.push(ratio);
    }
    ratios.sort_by(f64::total_cmp);
    if let (Some(least), Some(greatest)) = (ratios.first(), ratios.last()) {
        let above = |limit: f64| ratios.iter().filter(|&&ratio| ratio > limit).count();
        println!(
            "\n{} folders: ratios from {least:.2} to {greatest:.2}, the middle one {:.2}; {} above 0.95, {} above 1, {} above 1.05.",
            ratios.len(), ratios[ratios.len() / 2], above(0.95), above(1.0), above(1.05),
        );
    }
    Ok(())
}
