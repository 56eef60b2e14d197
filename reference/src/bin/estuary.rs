//! Writes the example: `estuary FOLDER` puts network.gr, reports.csv,
//! thresholds.csv and the plain program's expected.csv into the folder. The
//! same bytes every time.

use std::fmt::Write as _;
use std::path::Path;

use reference::random::Rng;
use reference::table::run;

/// First node, second node, length in metres, and what pilots call the leg.
const LEGS: [(u32, u32, u32, &str); 18] = [
    (1, 2, 4_200, "approach from the sea buoy"),
    (2, 3, 2_650, "bar channel"),
    (3, 4, 1_840, "north of Gull Island"),
    (3, 5, 910, "south of Gull Island, to the bend"),
    (5, 4, 931, "south of Gull Island, from the bend: a metre more than north of it"),
    (4, 6, 2_300, "main reach"),
    (6, 7, 1_150, "west arm"),
    (6, 8, 780, "harbour reach"),
    (8, 8, 1_225, "turning basin, once round and back to where it is entered"),
    (8, 9, 640, "quay reach"),
    (9, 10, 1_205, "east of Mill Island"),
    (9, 11, 620, "west of Mill Island, to the weir"),
    (11, 10, 584, "west of Mill Island, from the weir: a metre less than east of it"),
    (10, 12, 3_900, "upper river"),
    (7, 13, 1_020, "yacht creek"),
    (13, 12, 2_750, "back channel"),
    (14, 15, 410, "dry dock, shut off by its gates"),
    (9, 8, 655, "along the pontoons, beside the quay reach"),
];

const NODES: u32 = 15;

/// The pilots' cards: a leg and an offset. Most of them lie around node 8,
/// where the harbour reach opens into the turning basin.
const OBSERVED: [(u32, u32); 25] = [
    (8, 640),
    (8, 690),
    (8, 715),
    (8, 742),
    (8, 758),
    (8, 780),
    (9, 0),
    (9, 25),
    (9, 60),
    (9, 1_170),
    (9, 1_205),
    (10, 12),
    (10, 48),
    (10, 90),
    (1, 1_300),
    (2, 400),
    (3, 920),
    (5, 10),
    (6, 1_150),
    (11, 600),
    (14, 800),
    (14, 2_950),
    (15, 510),
    (16, 1_400),
    (17, 200),
];

/// Sets to compare with, each as large as the observed one.
const COMPARED: u32 = 31;

const THRESHOLDS: [u32; 12] = [100, 200, 300, 400, 600, 800, 1_000, 1_500, 2_000, 3_000, 4_000, 6_000];

/// A place drawn evenly over all metres of all legs.
fn drawn(rng: &mut Rng) -> (u32, u32) {
    let total: u64 = LEGS.iter().map(|leg| u64::from(leg.2)).sum();
    let mut left = rng.below(total);
    for (number, leg) in (1..).zip(LEGS) {
        let length = u64::from(leg.2);
        if left < length {
            // Either end of the metre that was drawn.
            return (number, left as u32 + u32::from(rng.once_in(2)));
        }
        left -= length;
    }
    (1, 0)
}

fn network_text() -> String {
    let mut text = String::from("c A small estuary: sea buoy at node 1, turning basin at node 8, dry dock at 14 and 15.\n");
    let _ = writeln!(text, "p sp {NODES} {}", 2 * LEGS.len());
    for (number, (first, second, length, name)) in (1..).zip(LEGS) {
        let _ = write!(text, "c leg {number}: {name}\na {first} {second} {length}\na {second} {first} {length}\n");
    }
    text
}

fn reports_text() -> String {
    let mut text = String::from("set,leg,offset\r\n");
    for (leg, offset) in OBSERVED {
        let _ = write!(text, "0,{leg},{offset}\r\n");
    }
    let mut rng = Rng::new(2_026);
    for set in 1..=COMPARED {
        for _ in OBSERVED {
            let (leg, offset) = drawn(&mut rng);
            let _ = write!(text, "{set},{leg},{offset}\r\n");
        }
    }
    text
}

fn thresholds_text() -> String {
    let mut text = String::from("threshold\r\n");
    for threshold in THRESHOLDS {
        let _ = write!(text, "{threshold}\r\n");
    }
    text
}

fn main() -> std::io::Result<()> {
    let Some(folder) = std::env::args_os().nth(1) else {
        println!("estuary FOLDER");
        return Ok(());
    };
    let (network, reports, thresholds) = (network_text(), reports_text(), thresholds_text());
    let expected = run(network.as_bytes(), reports.as_bytes(), thresholds.as_bytes());
    let folder = Path::new(&folder);
    std::fs::create_dir_all(folder)?;
    for (name, text) in [
        ("network.gr", network),
        ("reports.csv", reports),
        ("thresholds.csv", thresholds),
        ("expected.csv", expected),
    ] {
        std::fs::write(folder.join(name), text)?;
    }
    Ok(())
}
