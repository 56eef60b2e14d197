//! Lays out the observed reports, counts pairs and prints the table of
//! observed, least and greatest.
//!
//! From the repository's folder, after `(cd crates/exports && rt lib)`:
//!   rustc -O -L crates/exports/out -l static=exports examples/rust/table.rs -o table && ./table

extern "C" {
    fn kc_lay_out(
        legs: *mut u32, legs_len: usize, offsets: *mut u32, offsets_len: usize,
        number: *mut u32, place: *mut usize,
    );
    fn kc_range_counts(
        nodes: u32, firsts: *const u32, firsts_len: usize, seconds: *const u32, seconds_len: usize,
        lengths: *const u32, lengths_len: usize,
        sets: *const u32, sets_len: usize, legs: *const u32, legs_len: usize, offsets: *const u32, offsets_len: usize,
        thresholds: *const u32, thresholds_len: usize, answers: *mut u32, answers_len: usize,
        number: *mut u32, place: *mut usize,
    );
}

/// A refusal's number and place.
type Refusal = (u32, usize);

fn told(call: impl FnOnce(*mut u32, *mut usize)) -> Result<(), Refusal> {
    let (mut number, mut place) = (0, 0);
    call(&mut number, &mut place);
    if number == 0 { Ok(()) } else { Err((number, place)) }
}

/// A network: for each leg its first node, second node and length.
struct Network {
    nodes: u32,
    firsts: Vec<u32>,
    seconds: Vec<u32>,
    lengths: Vec<u32>,
}

/// Reports: for each its set, leg and offset. Set 0 is the observed one.
struct Reports {
    sets: Vec<u32>,
    legs: Vec<u32>,
    offsets: Vec<u32>,
}

fn lay_out(legs: &mut [u32], offsets: &mut [u32]) -> Result<(), Refusal> {
    // SAFETY: each pointer is of a lent list, with its own length.
    told(|number, place| unsafe {
        kc_lay_out(legs.as_mut_ptr(), legs.len(), offsets.as_mut_ptr(), offsets.len(), number, place)
    })
}

/// For each set in turn a count for each threshold in turn.
fn counts(network: &Network, reports: &Reports, thresholds: &[u32]) -> Result<Vec<u32>, Refusal> {
    let sets = reports.sets.iter().max().map_or(1, |&set| set as usize + 1);
    let mut answers = vec![0; sets * thresholds.len()];
    // SAFETY: as above.
    told(|number, place| unsafe {
        kc_range_counts(
            network.nodes, network.firsts.as_ptr(), network.firsts.len(), network.seconds.as_ptr(), network.seconds.len(),
            network.lengths.as_ptr(), network.lengths.len(),
            reports.sets.as_ptr(), reports.sets.len(), reports.legs.as_ptr(), reports.legs.len(),
            reports.offsets.as_ptr(), reports.offsets.len(),
            thresholds.as_ptr(), thresholds.len(), answers.as_mut_ptr(), answers.len(),
            number, place,
        )
    })?;
    Ok(answers)
}

fn print() -> Result<(), Refusal> {
    let network = Network { nodes: 4, firsts: vec![1, 2, 3, 3], seconds: vec![2, 3, 1, 4], lengths: vec![5, 4, 3, 6] };
    let reports = Reports {
        sets: vec![0, 0, 0, 0, 1, 1, 1, 1, 2, 2, 2, 2],
        legs: vec![1, 2, 4, 1, 1, 3, 4, 2, 4, 4, 4, 4],
        offsets: vec![1, 3, 2, 4, 0, 3, 6, 0, 3, 3, 3, 3],
    };
    let thresholds = [2, 3, 5, 7];

    let (mut legs, mut offsets) = (reports.legs[..4].to_vec(), reports.offsets[..4].to_vec());
    lay_out(&mut legs, &mut offsets)?;
    println!("leg,offset");
    for (leg, offset) in legs.iter().zip(&offsets) {
        println!("{leg},{offset}");
    }

    let counts = counts(&network, &reports, &thresholds)?;
    let (observed, compared) = counts.split_at(thresholds.len());
    println!("threshold,observed,least,greatest");
    for (k, threshold) in thresholds.iter().enumerate() {
        let column = || compared.iter().skip(k).step_by(thresholds.len());
        let (least, greatest) = (column().min(), column().max());
        let field = |value: Option<&u32>| value.map_or(String::new(), u32::to_string);
        println!("{threshold},{},{},{}", observed[k], field(least), field(greatest));
    }
    Ok(())
}

fn main() {
    if let Err((number, place)) = print() {
        eprintln!("refused: number {number} at place {place}");
        std::process::exit(1);
    }
}
