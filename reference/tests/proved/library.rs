//! Safe calls of the proved library.

use reference::lists::Refusal;
use reference::random::{NetworkInput, ReportInput};

#[link(name = "exports", kind = "static")]
extern "C" {
    fn kc_lay_out(
        edges: *mut u32, edges_len: usize,
        offsets: *mut u32, offsets_len: usize,
        number: *mut u32, place: *mut usize,
    );
    fn kc_distances_from(
        nodes: u32, firsts: *const u32, firsts_len: usize, seconds: *const u32, seconds_len: usize,
        lengths: *const u32, lengths_len: usize,
        source: u32, bound: u32, answers: *mut u32, answers_len: usize,
        number: *mut u32, place: *mut usize,
    );
    fn kc_end_distances(
        nodes: u32, firsts: *const u32, firsts_len: usize, seconds: *const u32, seconds_len: usize,
        lengths: *const u32, lengths_len: usize,
        bound: u32, wanted: *const u32, wanted_len: usize, table: *mut u32, table_len: usize,
        number: *mut u32, place: *mut usize,
    );
    fn kc_node_distance(
        nodes: u32, firsts: *const u32, firsts_len: usize, seconds: *const u32, seconds_len: usize,
        lengths: *const u32, lengths_len: usize,
        u: u32, v: u32,
        number: *mut u32, place: *mut usize,
    ) -> u64;
    fn kc_bounded_node_distance(
        nodes: u32, firsts: *const u32, firsts_len: usize, seconds: *const u32, seconds_len: usize,
        lengths: *const u32, lengths_len: usize,
        bound: u32, u: u32, v: u32,
        number: *mut u32, place: *mut usize,
    ) -> u64;
    fn kc_location_distance(
        nodes: u32, firsts: *const u32, firsts_len: usize, seconds: *const u32, seconds_len: usize,
        lengths: *const u32, lengths_len: usize,
        edge1: u32, offset1: u32, edge2: u32, offset2: u32,
        number: *mut u32, place: *mut usize,
    ) -> u64;
    fn kc_perimeter_count(
        nodes: u32, firsts: *const u32, firsts_len: usize, seconds: *const u32, seconds_len: usize,
        lengths: *const u32, lengths_len: usize,
        edge: u32, offset: u32, radius: u32,
        number: *mut u32, place: *mut usize,
    ) -> u32;
    fn kc_range_counts(
        nodes: u32, firsts: *const u32, firsts_len: usize, seconds: *const u32, seconds_len: usize,
        lengths: *const u32, lengths_len: usize,
        sets: *const u32, sets_len: usize, edges: *const u32, edges_len: usize, offsets: *const u32, offsets_len: usize,
        thresholds: *const u32, thresholds_len: usize, answers: *mut u32, answers_len: usize,
        number: *mut u32, place: *mut usize,
    );
    fn kc_augmentation_counts(
        nodes: u32, firsts: *const u32, firsts_len: usize, seconds: *const u32, seconds_len: usize,
        lengths: *const u32, lengths_len: usize,
        sets: *const u32, sets_len: usize, edges: *const u32, edges_len: usize, offsets: *const u32, offsets_len: usize,
        thresholds: *const u32, thresholds_len: usize, answers: *mut u32, answers_len: usize,
        number: *mut u32, place: *mut usize,
    );
    fn kc_sharing_counts(
        nodes: u32, firsts: *const u32, firsts_len: usize, seconds: *const u32, seconds_len: usize,
        lengths: *const u32, lengths_len: usize,
        sets: *const u32, sets_len: usize, edges: *const u32, edges_len: usize, offsets: *const u32, offsets_len: usize,
        thresholds: *const u32, thresholds_len: usize, answers: *mut u32, answers_len: usize,
        number: *mut u32, place: *mut usize,
    );
    fn kc_augment(
        nodes: u32, firsts: *const u32, firsts_len: usize, seconds: *const u32, seconds_len: usize,
        lengths: *const u32, lengths_len: usize,
        edges: *const u32, edges_len: usize, offsets: *const u32, offsets_len: usize,
        near_first: *mut u32, near_first_len: usize, near_second: *mut u32, near_second_len: usize,
        number: *mut u32, place: *mut usize,
    );
    fn kc_cursors(
        nodes: u32, firsts: *const u32, firsts_len: usize, seconds: *const u32, seconds_len: usize,
        lengths: *const u32, lengths_len: usize,
        edges: *const u32, edges_len: usize, offsets: *const u32, offsets_len: usize,
        edge1: u32, edge2: u32, threshold: u32, bound: u32,
        positions: *mut u32, positions_len: usize, moves: *mut u32, moves_len: usize,
        number: *mut u32, place: *mut usize,
    );
    fn kc_read_thresholds(
        text: *const u8, text_len: usize,
        thresholds: *mut u32, thresholds_len: usize,
        number: *mut u32, place: *mut usize,
    ) -> usize;
    fn kc_read_events(
        text: *const u8, text_len: usize,
        nodes: u32, firsts: *const u32, firsts_len: usize, seconds: *const u32, seconds_len: usize,
        lengths: *const u32, lengths_len: usize,
        sets: *mut u32, sets_len: usize, edges: *mut u32, edges_len: usize, offsets: *mut u32, offsets_len: usize,
        number: *mut u32, place: *mut usize,
    ) -> usize;
    fn kc_read_network(
        text: *const u8, text_len: usize,
        firsts: *mut u32, firsts_len: usize, seconds: *mut u32, seconds_len: usize, lengths: *mut u32, lengths_len: usize,
        nodes: *mut u32, number: *mut u32, place: *mut usize,
    ) -> usize;
}

/// What was told through number and place. Both start at values that no
/// refusal has, so that each call must write them.
fn told<T: Default + PartialEq + std::fmt::Debug>(call: impl FnOnce(*mut u32, *mut usize) -> T) -> Result<T, Refusal> {
    let (mut number, mut place) = (77, usize::MAX);
    let result = call(&mut number, &mut place);
    if number == 0 {
        assert_eq!(place, 0, "a place with no refusal");
        return Ok(result);
    }
    assert_eq!(result, T::default(), "a result beside a refusal");
    Err(Refusal { number, place: place as u64 })
}

/// 0 is none, else one more than the metres.
fn metres(code: u64) -> Option<u32> {
    code.checked_sub(1).map(|metres| u32::try_from(metres).expect("metres of 32 bits"))
}

pub fn lay_out(edges: &mut [u32], offsets: &mut [u32]) -> Result<(), Refusal> {
    // SAFETY: each pointer is of a lent list, with its own length.
    told(|number, place| unsafe {
        kc_lay_out(edges.as_mut_ptr(), edges.len(), offsets.as_mut_ptr(), offsets.len(), number, place)
    })
}

pub fn distances_from(net: &NetworkInput, source: u32, bound: u32, answers: &mut [u32]) -> Result<(), Refusal> {
    // SAFETY: as above.
    told(|number, place| unsafe {
        kc_distances_from(
            net.nodes, net.firsts.as_ptr(), net.firsts.len(), net.seconds.as_ptr(), net.seconds.len(),
            net.lengths.as_ptr(), net.lengths.len(),
            source, bound, answers.as_mut_ptr(), answers.len(), number, place,
        )
    })
}

pub fn end_distances(net: &NetworkInput, bound: u32, wanted: &[u32], table: &mut [u32]) -> Result<(), Refusal> {
    // SAFETY: as above.
    told(|number, place| unsafe {
        kc_end_distances(
            net.nodes, net.firsts.as_ptr(), net.firsts.len(), net.seconds.as_ptr(), net.seconds.len(),
            net.lengths.as_ptr(), net.lengths.len(),
            bound, wanted.as_ptr(), wanted.len(), table.as_mut_ptr(), table.len(),
            number, place,
        )
    })
}

pub fn node_distance(net: &NetworkInput, u: u32, v: u32) -> Result<Option<u32>, Refusal> {
    // SAFETY: as above.
    told(|number, place| unsafe {
        kc_node_distance(
            net.nodes, net.firsts.as_ptr(), net.firsts.len(), net.seconds.as_ptr(), net.seconds.len(),
            net.lengths.as_ptr(), net.lengths.len(),
            u, v, number, place,
        )
    })
    .map(metres)
}

pub fn bounded_node_distance(net: &NetworkInput, bound: u32, u: u32, v: u32) -> Result<Option<u32>, Refusal> {
    // SAFETY: as above.
    told(|number, place| unsafe {
        kc_bounded_node_distance(
            net.nodes, net.firsts.as_ptr(), net.firsts.len(), net.seconds.as_ptr(), net.seconds.len(),
            net.lengths.as_ptr(), net.lengths.len(),
            bound, u, v, number, place,
        )
    })
    .map(metres)
}

pub fn location_distance(net: &NetworkInput, one: (u32, u32), other: (u32, u32)) -> Result<Option<u32>, Refusal> {
    // SAFETY: as above.
    told(|number, place| unsafe {
        kc_location_distance(
            net.nodes, net.firsts.as_ptr(), net.firsts.len(), net.seconds.as_ptr(), net.seconds.len(),
            net.lengths.as_ptr(), net.lengths.len(),
            one.0, one.1, other.0, other.1, number, place,
        )
    })
    .map(metres)
}

pub fn perimeter_count(net: &NetworkInput, centre: (u32, u32), radius: u32) -> Result<u32, Refusal> {
    // SAFETY: as above.
    told(|number, place| unsafe {
        kc_perimeter_count(
            net.nodes, net.firsts.as_ptr(), net.firsts.len(), net.seconds.as_ptr(), net.seconds.len(),
            net.lengths.as_ptr(), net.lengths.len(),
            centre.0, centre.1, radius, number, place,
        )
    })
}

/// The same call for every method that counts pairs.
macro_rules! counts {
    ($name:ident, $function:ident) => {
        pub fn $name(
            net: &NetworkInput,
            reports: &ReportInput,
            thresholds: &[u32],
            answers: &mut [u32],
        ) -> Result<(), Refusal> {
            // SAFETY: as above.
            told(|number, place| unsafe {
                $function(
                    net.nodes, net.firsts.as_ptr(), net.firsts.len(), net.seconds.as_ptr(), net.seconds.len(),
                    net.lengths.as_ptr(), net.lengths.len(),
                    reports.sets.as_ptr(), reports.sets.len(), reports.legs.as_ptr(), reports.legs.len(),
                    reports.offsets.as_ptr(), reports.offsets.len(),
                    thresholds.as_ptr(), thresholds.len(), answers.as_mut_ptr(), answers.len(),
                    number, place,
                )
            })
        }
    };
}

counts!(range_counts, kc_range_counts);
counts!(augmentation_counts, kc_augmentation_counts);
counts!(sharing_counts, kc_sharing_counts);

pub fn augment(
    net: &NetworkInput,
    edges: &[u32],
    offsets: &[u32],
    near_first: &mut [u32],
    near_second: &mut [u32],
) -> Result<(), Refusal> {
    // SAFETY: as above.
    told(|number, place| unsafe {
        kc_augment(
            net.nodes, net.firsts.as_ptr(), net.firsts.len(), net.seconds.as_ptr(), net.seconds.len(),
            net.lengths.as_ptr(), net.lengths.len(),
            edges.as_ptr(), edges.len(), offsets.as_ptr(), offsets.len(),
            near_first.as_mut_ptr(), near_first.len(), near_second.as_mut_ptr(), near_second.len(),
            number, place,
        )
    })
}

/// The marks of two edges, given as a pair.
pub fn cursors(
    net: &NetworkInput,
    edges: &[u32],
    offsets: &[u32],
    two_edges: (u32, u32),
    threshold: u32,
    bound: u32,
    positions: &mut [u32],
    moves: &mut [u32],
) -> Result<(), Refusal> {
    // SAFETY: as above.
    told(|number, place| unsafe {
        kc_cursors(
            net.nodes, net.firsts.as_ptr(), net.firsts.len(), net.seconds.as_ptr(), net.seconds.len(),
            net.lengths.as_ptr(), net.lengths.len(),
            edges.as_ptr(), edges.len(), offsets.as_ptr(), offsets.len(),
            two_edges.0, two_edges.1, threshold, bound,
            positions.as_mut_ptr(), positions.len(), moves.as_mut_ptr(), moves.len(),
            number, place,
        )
    })
}

pub fn read_thresholds(text: &[u8], thresholds: &mut [u32]) -> Result<usize, Refusal> {
    // SAFETY: as above.
    told(|number, place| unsafe {
        kc_read_thresholds(text.as_ptr(), text.len(), thresholds.as_mut_ptr(), thresholds.len(), number, place)
    })
}

pub fn read_events(
    text: &[u8],
    net: &NetworkInput,
    sets: &mut [u32],
    edges: &mut [u32],
    offsets: &mut [u32],
) -> Result<usize, Refusal> {
    // SAFETY: as above.
    told(|number, place| unsafe {
        kc_read_events(
            text.as_ptr(), text.len(),
            net.nodes, net.firsts.as_ptr(), net.firsts.len(), net.seconds.as_ptr(), net.seconds.len(),
            net.lengths.as_ptr(), net.lengths.len(),
            sets.as_mut_ptr(), sets.len(), edges.as_mut_ptr(), edges.len(), offsets.as_mut_ptr(), offsets.len(),
            number, place,
        )
    })
}

/// The number of nodes and of edges.
pub fn read_network(
    text: &[u8],
    firsts: &mut [u32],
    seconds: &mut [u32],
    lengths: &mut [u32],
) -> Result<(u32, usize), Refusal> {
    told(|number, place| {
        let mut nodes = 77;
        // SAFETY: as above.
        let edges = unsafe {
            kc_read_network(
                text.as_ptr(), text.len(),
                firsts.as_mut_ptr(), firsts.len(), seconds.as_mut_ptr(), seconds.len(), lengths.as_mut_ptr(), lengths.len(),
                &mut nodes, number, place,
            )
        };
        (nodes, edges)
    })
}
