//! Times the proved library beside the plain one, in one run, on the same
//! input: the least of many turns of each, taken by turns, in time on the
//! processor. A word as argument leaves only the lines that have it. The word
//! `methods` times the three proved methods beside each other instead, and the
//! word `gathered` these and the table of the program that KC_PROGRAM names, on
//! reports that gather.

#[cfg(proved)]
#[allow(dead_code)]
mod folder;

#[cfg(proved)]
#[allow(dead_code)]
#[path = "../../tests/proved/library.rs"]
mod library;

#[cfg(not(proved))]
fn main() {
    println!("set KC_LIB to the folder of libexports.a (rt lib in crates/exports) and build anew");
}

#[cfg(proved)]
fn main() -> std::io::Result<()> {
    let ended = match std::env::args().nth(1).as_deref() {
        Some("gathered") => return bench::gathered(),
        Some("methods") => bench::methods(),
        _ => bench::all(),
    };
    if let Err(refusal) = ended {
        println!("refused: {refusal:?}");
    }
    Ok(())
}

#[cfg(proved)]
mod bench {
    use std::fs;
    use std::hint::black_box;
    use std::io;
    use std::path::Path;
    use std::time::Duration;

    use reference::calls;
    use reference::counts::Method;
    use reference::distance::{from_source, Adjacency};
    use reference::lists::Refusal;
    use reference::model::{Network, Thresholds};
    use reference::random::{self, Gathered, NetworkInput, ReportInput, Rng, Spread, Spread::Even, Spread::Far, Spread::Short};
    use reference::table::{self, FILES};
    use reference::text;
    use reference::tuned;

    use crate::folder;
    use crate::library;

    #[repr(C)]
    struct Time {
        seconds: i64,
        nanoseconds: i64,
    }

    extern "C" {
        fn clock_gettime(clock: i32, time: *mut Time) -> i32;
    }

    /// This thread's time on the processor: what other programs take does not
    /// count.
    fn now() -> Duration {
        const THREAD_TIME: i32 = 3;
        let mut time = Time { seconds: 0, nanoseconds: 0 };
        // SAFETY: the C library fills in the time that is lent.
        let status = unsafe { clock_gettime(THREAD_TIME, &mut time) };
        assert!(status == 0, "no clock");
        Duration::new(time.seconds as u64, time.nanoseconds as u32)
    }

    fn once(work: &mut dyn FnMut()) -> Duration {
        let start = now();
        work();
        now() - start
    }

    /// Both by turns, so that a busy machine slows both alike.
    fn beside(what: &str, turns: usize, mut proved: impl FnMut(), mut plain: impl FnMut()) {
        if std::env::args().nth(1).is_some_and(|word| !what.contains(&word)) {
            return;
        }
        let (mut a, mut b) = (Duration::MAX, Duration::MAX);
        for _ in 0..turns {
            a = a.min(once(&mut proved));
            b = b.min(once(&mut plain));
        }
        println!(
            "{what:<52} proved {:>9.3} ms  plain {:>9.3} ms  ratio {:.2}",
            a.as_secs_f64() * 1e3,
            b.as_secs_f64() * 1e3,
            a.as_secs_f64() / b.as_secs_f64()
        );
    }

    fn distances(what: &str, input: &NetworkInput) -> Result<(), Refusal> {
        let network = Network::new(input.nodes, &input.firsts, &input.seconds, &input.lengths)?;
        let nodes = input.nodes as usize;
        let (wanted, mut table) = (vec![1; nodes], vec![0; nodes * nodes]);
        beside(
            what,
            40,
            || {
                let _ = black_box(library::end_distances(input, u32::MAX, &wanted, &mut table));
            },
            || {
                let adjacency = Adjacency::new(&network);
                for source in 1..=input.nodes {
                    let _ = black_box(from_source(&adjacency, source));
                }
            },
        );
        Ok(())
    }

    type Proved = fn(&NetworkInput, &ReportInput, &[u32], &mut [u32]) -> Result<(), Refusal>;

    /// Each method, with the turns that its time allows.
    const METHODS: [(&str, Proved, Method, usize); 3] = [
        ("range query", library::range_counts, Method::RangeQuery, 25),
        ("count augmentation", library::augmentation_counts, Method::CountAugmentation, 8),
        ("neighbour sharing", library::sharing_counts, Method::NeighbourSharing, 8),
    ];

    /// Checks, laying out, leg-end distances and counts, from plain lists.
    fn counting(shape: &str, input: &NetworkInput, reports: &ReportInput, thresholds: &[u32]) -> Result<(), Refusal> {
        let wanted = calls::counts_wanted(&reports.sets, thresholds);
        let (mut told, mut expected) = (vec![0; wanted], vec![0; wanted]);
        for (name, proved, plain, turns) in METHODS {
            beside(
                &format!("{name}, {shape}"),
                turns,
                || {
                    let _ = black_box(proved(input, reports, thresholds, &mut told));
                },
                || {
                    let _ = black_box(calls::counts(tuned::by, plain, input, reports, thresholds, &mut expected));
                },
            );
            assert!(told == expected, "{name}, {shape}: counts differ");
            told.fill(0);
            expected.fill(0);
        }
        Ok(())
    }

    /// Sets, reports in each, legs that have them (0 for all), thresholds and
    /// how they are spread.
    const SHAPES: [(u32, usize, usize, usize, Spread); 23] = [
        (1, 8_192, 1, 64, Even),
        (1, 8_192, 1, 64, Short),
        (1, 8_192, 9, 64, Even),
        (1, 8_192, 9, 64, Short),
        (1, 8_192, 9, 64, Far),
        (1, 8_192, 9, 8, Even),
        (1, 8_192, 9, 8, Short),
        (1, 8_192, 64, 64, Even),
        (1, 8_192, 64, 64, Short),
        (1, 8_192, 128, 64, Even),
        (1, 8_192, 256, 64, Even),
        (1, 8_192, 0, 64, Even),
        (1, 8_192, 0, 64, Far),
        (1, 8_192, 0, 8, Even),
        (1, 8_192, 0, 2, Even),
        (1, 8_192, 0, 1, Even),
        (4, 2_048, 9, 64, Even),
        (4, 2_048, 32, 64, Even),
        (4, 2_048, 256, 8, Even),
        (4, 2_048, 0, 1, Even),
        (32, 256, 1, 64, Even),
        (32, 256, 9, 64, Even),
        (32, 256, 9, 1, Even),
    ];

    /// The proved methods beside each other: the least of five turns of each,
    /// in ms.
    pub fn methods() -> Result<(), Refusal> {
        let mut rng = Rng::new(2026);
        let ring = random::ring_network(&mut rng, 512, 1_024, 1_000);
        println!("| Sets of reports | on legs | thresholds | spread | range query | count augmentation | neighbour sharing |");
        println!("|---|---|---|---|---|---|---|");
        for (sets, per_set, on_legs, marks, spread) in SHAPES {
            let reports = random::reports(&mut rng, &ring, sets, per_set, on_legs);
            let thresholds = spread.thresholds(marks, 1_000);
            let mut told = vec![0; calls::counts_wanted(&reports.sets, &thresholds)];
            let times = METHODS.map(|(_, proved, _, _)| {
                let mut work = || {
                    let _ = black_box(proved(&ring, &reports, &thresholds, &mut told));
                };
                (0..5).map(|_| once(&mut work)).min().map_or(0.0, |time| time.as_secs_f64() * 1e3)
            });
            let on_legs = if on_legs == 0 { 1_024 } else { on_legs };
            println!(
                "| {sets} of {per_set} | {on_legs} | {marks} | {} | {:.1} | {:.1} | {:.1} |",
                spread.name(), times[0], times[1], times[2]
            );
        }
        Ok(())
    }

    /// How often each is timed on reports that gather. It is odd.
    const TURNS: usize = 7;

    /// Of an odd number of times the middle one and the least.
    fn middle_and_least(mut times: Vec<f64>) -> [f64; 2] {
        times.sort_by(f64::total_cmp);
        [times[times.len() / 2], times[0]]
    }

    /// What the program must print, from the counts of all sets.
    fn printed(counts: &[u32], thresholds: &[u32]) -> String {
        let rows = counts.chunks(thresholds.len()).map(|row| row.iter().map(|&count| u64::from(count)).collect());
        let thresholds = Thresholds::new(thresholds).expect("good thresholds");
        table::print(&table::rows(&rows.collect(), &thresholds))
    }

    /// Milliseconds of each proved method and of the table, the middle and the
    /// least of all turns, taken by turns.
    ///
    /// The library has no function of the table. Its time is that of the
    /// program less that of the program where the thresholds alone are refused,
    /// which is what starting it and reading texts take. What is left has the
    /// printing in it and the first touch of the working storage, which the
    /// methods have touched before.
    fn beside_table(line: &Gathered, program: &Path, place: &Path) -> io::Result<([[f64; 2]; 3], [f64; 2])> {
        let (network, reports, thresholds) = line.lists();
        let (whole, refused) = (place.join("whole"), place.join("refused"));
        folder::fill(&whole, &mut Rng::new(2026), &network, &reports, &thresholds)?;
        fs::create_dir_all(&refused)?;
        for name in &FILES[..2] {
            fs::copy(whole.join(name), refused.join(name))?;
        }
        let out = place.join("out");
        let mut told = vec![0; calls::counts_wanted(&reports.sets, &thresholds)];
        let mut methods = [const { Vec::new() }; 3];
        let mut tables = Vec::new();
        for _ in 0..TURNS {
            let run = folder::run(program, None, &whole, &out)?.time;
            let expected = fs::read_to_string(&out)?;
            tables.push(run - folder::run(program, None, &refused, &out)?.time);
            assert!(fs::read(&out)?.starts_with(b"refused,thresholds.csv,"), "{}: not refused", line.name);
            for ((name, proved, _, _), times) in METHODS.into_iter().zip(&mut methods) {
                told.fill(0);
                let mut work = || {
                    let _ = black_box(proved(&network, &reports, &thresholds, &mut told));
                };
                times.push(once(&mut work).as_secs_f64() * 1e3);
                assert!(printed(&told, &thresholds) == expected, "{name}, {}: counts differ", line.name);
            }
        }
        Ok((methods.map(middle_and_least), middle_and_least(tables)))
    }

    /// The proved methods beside the table, on reports that gather: the middle
    /// times, and the table's time over that of the fastest method, by these and
    /// by the least times, which other work on the machine changes less.
    pub fn gathered() -> io::Result<()> {
        let Some(program) = std::env::var_os("KC_PROGRAM").filter(|path| !path.is_empty()) else {
            println!("set KC_PROGRAM to the path of the proved program (rt run in crates/kcount)");
            return Ok(());
        };
        let program = fs::canonicalize(program)?;
        let place = std::env::temp_dir().join(format!("gathered-{}", std::process::id()));
        println!("| Lists | sets of reports | on legs | thresholds | spread | range query | count augmentation | neighbour sharing | table | table over the fastest | by least times |");
        println!("|---|---|---|---|---|---|---|---|---|---|---|");
        for line in &Gathered::ALL {
            let (times, table) = beside_table(line, &program, &place)?;
            let ratios = [0, 1].map(|k| table[k] / times.iter().map(|time| time[k]).fold(f64::MAX, f64::min));
            println!(
                "| {} | {} of {} | {}, {} | {} | {} | {:.1} | {:.1} | {:.1} | {:.1} | {:.2} | {:.2} |",
                line.name, line.sets, line.per_set, Gathered::LEGS, line.gathering.name(), line.thresholds, line.spread.name(),
                times[0][0], times[1][0], times[2][0], table[0], ratios[0], ratios[1],
            );
        }
        fs::remove_dir_all(&place)
    }

    pub fn all() -> Result<(), Refusal> {
        let mut rng = Rng::new(2026);
        let ring = random::ring_network(&mut rng, 512, 1_024, 1_000);
        distances("all nodes from all nodes, ring and chords", &ring)?;
        distances("all nodes from all nodes, ring, legs to 1,000,000", &random::ring_network(&mut rng, 512, 1_024, 1_000_000))?;
        distances("all nodes from all nodes, random", &random::network_of(&mut rng, 512, 1_024, 1_000))?;

        let network_text = random::stretch_gr(&random::network_text(&mut rng, &ring), 60_000);
        let (mut f, mut s, mut l) = (vec![0; 1_024], vec![0; 1_024], vec![0; 1_024]);
        beside(
            "network text of 60,000 bytes",
            200,
            || {
                let _ = black_box(library::read_network(&network_text, &mut f, &mut s, &mut l));
            },
            || drop(black_box(text::parse_network(&network_text))),
        );
        let reports_text = random::long_reports(&mut rng, 9, 60_000);
        let (mut sets, mut legs, mut offsets) = (vec![0; 8_192], vec![0; 8_192], vec![0; 8_192]);
        beside(
            "report text of 60,000 bytes",
            200,
            || {
                let _ = black_box(library::read_events(&reports_text, &ring, &mut sets, &mut legs, &mut offsets));
            },
            || drop(black_box(text::parse_reports(&reports_text, ring.nodes, &ring.firsts, &ring.seconds, &ring.lengths))),
        );

        // Thresholds up to somewhat less than the widest distance.
        let thresholds = random::even_thresholds(64, 6_000);
        for (shape, sets, per_set, on_legs) in [
            ("1 set of 8,192 on 1,024 legs", 1, 8_192, 0),
            ("32 sets of 256 on 1,024 legs", 32, 256, 0),
            ("1 set of 8,192 on 9 legs", 1, 8_192, 9),
            ("32 sets of 256 on 9 legs", 32, 256, 9),
        ] {
            let reports = random::reports(&mut rng, &ring, sets, per_set, on_legs);
            counting(shape, &ring, &reports, &thresholds)?;
        }
        Ok(())
    }
}
