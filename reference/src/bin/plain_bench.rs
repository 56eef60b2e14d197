//! Times each piece at the limits. Prints one line for each: what, and the
//! least of a few runs.

use std::hint::black_box;
use std::time::{Duration, Instant};

use reference::counts;
use reference::distance::{
    from_source, from_source_bounded, perimeter_closed, Adjacency, Location, NodeTable,
};
use reference::lists::{check_reports, lay_out};
use reference::model::{Network, Sets, Thresholds};
use reference::random::{self, Rng};
use reference::text::{parse_network, parse_reports, parse_thresholds};
use reference::tuned;

/// Least time of up to `runs` runs, stopping after about two seconds.
fn time<T>(what: &str, runs: usize, mut work: impl FnMut() -> T) {
    let mut least = Duration::MAX;
    let begin = Instant::now();
    let mut done = 0;
    while done < runs.max(1) && (done == 0 || begin.elapsed() < Duration::from_secs(2)) {
        let start = Instant::now();
        black_box(work());
        least = least.min(start.elapsed());
        done += 1;
    }
    println!("{what:<64} {:>12.3} ms  ({done} runs)", least.as_secs_f64() * 1e3);
}

fn main() {
    if let Err(refusal) = bench() {
        println!("refused: {refusal:?}");
    }
}

fn bench() -> Result<(), reference::lists::Refusal> {
    let mut rng = Rng::new(2026);
    let input = random::ring_network(&mut rng, 512, 1_024, 1_000);
    let network = Network::new(input.nodes, &input.firsts, &input.seconds, &input.lengths)?;
    let table = NodeTable::new(&network);
    let mut widest = 0;
    for a in 1..=512 {
        for b in 1..=512 {
            widest = widest.max(table.get(a, b).unwrap_or(0));
        }
    }
    println!("512 nodes, 1,024 legs of 1 to 1,000 m; widest node distance {widest} m");

    println!("\ndistances and perimeters");
    time("adjacency built", 1_000, || Adjacency::new(&network));
    let adjacency = Adjacency::new(&network);
    time("from one node, heap", 1_000, || from_source(&adjacency, 1));
    time("from one node, bound a quarter of the widest", 1_000, || from_source_bounded(&adjacency, 1, widest / 4));
    time("table of all nodes, heap", 20, || NodeTable::new(&network));
    time("table of all nodes, bound a quarter of the widest", 20, || NodeTable::bounded(&network, widest / 4));
    time("table of all nodes, naive", 3, || NodeTable::naive(&network));
    let centre = Location { leg: 7, offset: network.lengths()[6] / 2 };
    time("one perimeter count, closed form", 1_000, || {
        perimeter_closed(&network, &adjacency, centre, widest / 2)
    });

    println!("\ntexts");
    let gr = random::network_text(&mut rng, &input);
    time(&format!("network text of {} bytes", gr.len()), 100, || parse_network(&gr));
    let rows = random::long_reports(&mut rng, input.lengths[0], 60_000);
    time(&format!("report text of {} bytes", rows.len()), 100, || {
        parse_reports(&rows, input.nodes, &input.firsts, &input.seconds, &input.lengths)
    });
    let csv = random::thresholds_text(&mut rng, &random::even_thresholds(64, widest));
    time(&format!("threshold text of {} bytes", csv.len()), 100, || parse_thresholds(&csv));

    let shapes = [
        ("1 set of 8,192 on all legs", 1, 8_192, 0),
        ("1 set of 8,192 on 9 legs", 1, 8_192, 9),
        ("32 sets of 256 on all legs", 32, 256, 0),
        ("32 sets of 256 on 9 legs", 32, 256, 9),
    ];
    for (shape, sets, per_set, on_legs) in shapes {
        let reports = random::reports(&mut rng, &input, sets, per_set, on_legs);
        println!("\n{shape}");
        time("checks of all lists", 100, || {
            check_reports(
                input.nodes,
                &input.firsts,
                &input.seconds,
                &input.lengths,
                &reports.sets,
                &reports.legs,
                &reports.offsets,
            )
        });
        time("laying out all reports as one set", 100, || lay_out(&reports.legs, &reports.offsets));
        time("checks and laying out of all sets", 100, || {
            Sets::new(&network, &reports.sets, &reports.legs, &reports.offsets)
        });
        let sets = Sets::new(&network, &reports.sets, &reports.legs, &reports.offsets)?;
        time("stored numbers of all sets", 100, || sets.all().iter().map(tuned::augment).collect::<Vec<_>>());
        for (name, reach) in [("wide", widest), ("narrow", widest / 16)] {
            for count in [64, 1] {
                let thresholds = Thresholds::new(&random::even_thresholds(count, reach))?;
                let table = NodeTable::bounded(&network, thresholds.greatest());
                let case = format!("{name} {count:>2} thresholds");
                let args = (&network, &table, &sets, &thresholds);
                time(&format!("range query, {case}"), 3, || counts::range_query(args.0, args.1, args.2, args.3));
                time(&format!("count augmentation, {case}"), 3, || {
                    tuned::count_augmentation(args.0, args.1, args.2, args.3)
                });
                time(&format!("neighbour sharing, {case}"), 3, || {
                    counts::neighbour_sharing(args.0, args.1, args.2, args.3)
                });
                println!("    chosen: {:?}", tuned::fastest(&sets, &thresholds));
            }
        }
    }
    Ok(())
}
