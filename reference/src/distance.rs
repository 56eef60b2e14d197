//! Node distances, distances of locations and perimeter counts.

use std::cmp::Reverse;
use std::collections::BinaryHeap;

use crate::lists::Refusal;
use crate::model::Network;

/// In a cell: no walk, or beyond the bound. No true distance comes near it
/// (511 legs of 1,000,000 at most), and it is never compared with a threshold:
/// readers turn it into `None` first.
const NONE: u32 = u32::MAX;

fn told(cell: u32) -> Option<u32> {
    (cell != NONE).then_some(cell)
}

/// The neighbours of each node, built once for a network.
#[derive(Clone, Debug)]
pub struct Adjacency {
    starts: Vec<usize>,
    /// Neighbour index from 0, and leg length.
    arcs: Vec<(u32, u32)>,
}

impl Adjacency {
    pub fn new(network: &Network) -> Adjacency {
        let nodes = network.nodes() as usize;
        let legs = || network.firsts().iter().zip(network.seconds()).zip(network.lengths());
        let mut starts = vec![0; nodes + 1];
        for ((&first, &second), _) in legs() {
            starts[first as usize] += 1;
            starts[second as usize] += 1;
        }
        for node in 1..starts.len() {
            starts[node] += starts[node - 1];
        }
        let mut next = starts.clone();
        let mut arcs = vec![(0, 0); 2 * network.legs()];
        for ((&first, &second), &length) in legs() {
            for (from, to) in [(first, second), (second, first)] {
                let slot = &mut next[from as usize - 1];
                arcs[*slot] = (to - 1, length);
                *slot += 1;
            }
        }
        Adjacency { starts, arcs }
    }

    pub fn nodes(&self) -> u32 {
        (self.starts.len() - 1) as u32
    }

    fn of(&self, index: usize) -> &[(u32, u32)] {
        &self.arcs[self.starts[index]..self.starts[index + 1]]
    }
}

/// Dijkstra with a heap from several starts (node index from 0, distance).
/// Nodes farther than the bound keep `NONE`.
fn dijkstra(adjacency: &Adjacency, starts: &[(usize, u32)], bound: Option<u32>, cells: &mut [u32]) {
    cells.fill(NONE);
    let within = |distance: u32| bound.is_none_or(|b| distance <= b);
    let mut heap: BinaryHeap<Reverse<(u32, u32)>> = BinaryHeap::new();
    for &(node, distance) in starts {
        if within(distance) && distance < cells[node] {
            cells[node] = distance;
            heap.push(Reverse((distance, node as u32)));
        }
    }
    while let Some(Reverse((distance, node))) = heap.pop() {
        let node = node as usize;
        if distance > cells[node] {
            continue;
        }
        for &(to, length) in adjacency.of(node) {
            let there = distance + length;
            if within(there) && there < cells[to as usize] {
                cells[to as usize] = there;
                heap.push(Reverse((there, to)));
            }
        }
    }
}

fn check_node(adjacency: &Adjacency, node: u32) -> Result<(), Refusal> {
    if node < 1 || node > adjacency.nodes() {
        return Err(Refusal { number: 7, place: 0 });
    }
    Ok(())
}

/// Distances from one node to all nodes; `None` is no walk.
pub fn from_source(adjacency: &Adjacency, source: u32) -> Result<Vec<Option<u32>>, Refusal> {
    check_node(adjacency, source)?;
    let mut cells = vec![NONE; adjacency.nodes() as usize];
    dijkstra(adjacency, &[(source as usize - 1, 0)], None, &mut cells);
    Ok(cells.into_iter().map(told).collect())
}

/// As `from_source`, but distances above the bound are `None` ('beyond').
pub fn from_source_bounded(adjacency: &Adjacency, source: u32, bound: u32) -> Result<Vec<Option<u32>>, Refusal> {
    check_node(adjacency, source)?;
    let mut cells = vec![NONE; adjacency.nodes() as usize];
    dijkstra(adjacency, &[(source as usize - 1, 0)], Some(bound), &mut cells);
    Ok(cells.into_iter().map(told).collect())
}

/// A naive second way: go over all legs until nothing changes.
pub fn from_source_naive(network: &Network, source: u32) -> Result<Vec<Option<u32>>, Refusal> {
    network.check_node(source)?;
    let mut answer: Vec<Option<u32>> = vec![None; network.nodes() as usize];
    answer[source as usize - 1] = Some(0);
    loop {
        let mut changed = false;
        for leg in 0..network.legs() {
            let (first, second) = (network.firsts()[leg] as usize - 1, network.seconds()[leg] as usize - 1);
            for (from, to) in [(first, second), (second, first)] {
                if let Some(distance) = answer[from] {
                    let there = distance + network.lengths()[leg];
                    if answer[to].is_none_or(|old| there < old) {
                        answer[to] = Some(there);
                        changed = true;
                    }
                }
            }
        }
        if !changed {
            return Ok(answer);
        }
    }
}

/// Distances between all nodes.
#[derive(Clone, Debug, PartialEq, Eq)]
pub struct NodeTable {
    nodes: usize,
    cells: Vec<u32>,
}

impl NodeTable {
    /// All distances.
    pub fn new(network: &Network) -> NodeTable {
        NodeTable::search(network, None)
    }

    /// All distances that are not above the bound.
    pub fn bounded(network: &Network, bound: u32) -> NodeTable {
        NodeTable::search(network, Some(bound))
    }

    /// The same from the ends of some legs only; the other rows have no
    /// distance.
    pub fn bounded_from(network: &Network, bound: u32, legs: impl Iterator<Item = u32>) -> NodeTable {
        let mut wanted = vec![false; network.nodes() as usize];
        for (first, second, _) in legs.filter_map(|leg| network.leg(leg)) {
            wanted[first as usize - 1] = true;
            wanted[second as usize - 1] = true;
        }
        NodeTable::search_from(network, Some(bound), |node| wanted[node])
    }

    fn search(network: &Network, bound: Option<u32>) -> NodeTable {
        NodeTable::search_from(network, bound, |_| true)
    }

    fn search_from(network: &Network, bound: Option<u32>, wanted: impl Fn(usize) -> bool) -> NodeTable {
        let adjacency = Adjacency::new(network);
        let nodes = network.nodes() as usize;
        let mut cells = vec![NONE; nodes * nodes];
        for (source, row) in cells.chunks_mut(nodes).enumerate() {
            if wanted(source) {
                dijkstra(&adjacency, &[(source, 0)], bound, row);
            }
        }
        NodeTable { nodes, cells }
    }

    /// A naive second way: Floyd and Warshall.
    pub fn naive(network: &Network) -> NodeTable {
        let nodes = network.nodes() as usize;
        let mut cells = vec![NONE; nodes * nodes];
        for node in 0..nodes {
            cells[node * nodes + node] = 0;
        }
        for leg in 0..network.legs() {
            let (a, b) = (network.firsts()[leg] as usize - 1, network.seconds()[leg] as usize - 1);
            let length = network.lengths()[leg];
            cells[a * nodes + b] = cells[a * nodes + b].min(length);
            cells[b * nodes + a] = cells[b * nodes + a].min(length);
        }
        for middle in 0..nodes {
            for a in 0..nodes {
                for b in 0..nodes {
                    if let (Some(to), Some(on)) = (told(cells[a * nodes + middle]), told(cells[middle * nodes + b])) {
                        let there = to + on;
                        if there < cells[a * nodes + b] {
                            cells[a * nodes + b] = there;
                        }
                    }
                }
            }
        }
        NodeTable { nodes, cells }
    }

    pub fn nodes(&self) -> u32 {
        self.nodes as u32
    }

    /// The distance of two nodes; `None` is no walk, beyond the bound, or no
    /// such node.
    pub fn get(&self, from: u32, to: u32) -> Option<u32> {
        let row = (from as usize).checked_sub(1)?;
        let column = (to as usize).checked_sub(1)?;
        if row >= self.nodes || column >= self.nodes {
            return None;
        }
        told(self.cells[row * self.nodes + column])
    }

    /// The four leg-end distances, from an end of the first leg to an end of
    /// the second: first-first, first-second, second-first, second-second.
    pub fn leg_ends(&self, network: &Network, first: u32, second: u32) -> [Option<u32>; 4] {
        match (network.leg(first), network.leg(second)) {
            (Some((a, b, _)), Some((u, v, _))) => [self.get(a, u), self.get(a, v), self.get(b, u), self.get(b, v)],
            _ => [None; 4],
        }
    }
}

/// A leg and an offset from its first node.
#[derive(Clone, Copy, Debug, PartialEq, Eq, PartialOrd, Ord, Hash)]
pub struct Location {
    pub leg: u32,
    pub offset: u32,
}

/// A place: a node, or a whole offset strictly inside a leg.
#[derive(Clone, Copy, Debug, PartialEq, Eq, PartialOrd, Ord, Hash)]
pub enum Place {
    Node(u32),
    Inside { leg: u32, offset: u32 },
}

/// The place of a location.
pub fn place(network: &Network, location: Location) -> Result<Place, Refusal> {
    network.check_location(location.leg, location.offset)?;
    let Location { leg, offset } = location;
    match network.leg(leg) {
        Some((first, _, _)) if offset == 0 => Ok(Place::Node(first)),
        Some((_, second, length)) if offset == length => Ok(Place::Node(second)),
        Some(_) => Ok(Place::Inside { leg, offset }),
        None => Err(Refusal { number: 13, place: 0 }),
    }
}

/// The ends of a place with the gaps to them. A node is its own only end.
fn ends(network: &Network, place: Place) -> impl Iterator<Item = (u32, u32)> {
    let [one, other] = match place {
        Place::Node(node) => [Some((node, 0)), None],
        Place::Inside { leg, offset } => match network.leg(leg) {
            Some((first, second, length)) if offset <= length => [Some((first, offset)), Some((second, length - offset))],
            _ => [None, None],
        },
    };
    one.into_iter().chain(other)
}

/// Distance of two places from the definition: over the ends of both, and the
/// direct stretch if both lie inside one leg.
pub fn place_distance(network: &Network, table: &NodeTable, a: Place, b: Place) -> Option<u32> {
    let mut least: Option<u32> = None;
    let mut offer = |length: u32| least = Some(least.map_or(length, |old| old.min(length)));
    for (end_a, gap_a) in ends(network, a) {
        for (end_b, gap_b) in ends(network, b) {
            if let Some(walk) = table.get(end_a, end_b) {
                offer(gap_a + walk + gap_b);
            }
        }
    }
    if let (Place::Inside { leg: one, offset: x }, Place::Inside { leg: two, offset: y }) = (a, b) {
        if one == two {
            offer(x.abs_diff(y));
        }
    }
    least
}

/// Distance of two locations from the definition. On one leg the difference of
/// offsets is a route even if an end of it is a node.
pub fn location_distance(
    network: &Network,
    table: &NodeTable,
    a: Location,
    b: Location,
) -> Result<Option<u32>, Refusal> {
    let (place_a, place_b) = (place(network, a)?, place(network, b)?);
    let around = place_distance(network, table, place_a, place_b);
    if a.leg != b.leg {
        return Ok(around);
    }
    let direct = a.offset.abs_diff(b.offset);
    Ok(Some(around.map_or(direct, |old| old.min(direct))))
}

/// Every place of the network: all nodes, then all whole offsets inside legs.
pub fn places(network: &Network) -> impl Iterator<Item = Place> + '_ {
    let nodes = (1..=network.nodes()).map(Place::Node);
    let inside = network.lengths().iter().enumerate().flat_map(|(index, &length)| {
        (1..length).map(move |offset| Place::Inside { leg: index as u32 + 1, offset })
    });
    nodes.chain(inside)
}

/// Perimeter count by trying every place. For small networks.
pub fn perimeter_naive(network: &Network, table: &NodeTable, centre: Location, radius: u32) -> Result<u32, Refusal> {
    let centre = place(network, centre)?;
    let at_radius = |&other: &Place| place_distance(network, table, centre, other) == Some(radius);
    Ok(places(network).filter(at_radius).count() as u32)
}

/// Perimeter count leg by leg. Inside a leg of length `l` whose ends lie at
/// `u` and `v`, offset `x` lies at the least of `u + x`, `v + l - x` and, on
/// the centre's own leg, the direct stretch. Each of these is the radius at
/// one or two offsets only, so at most four offsets need trying.
pub fn perimeter_closed(
    network: &Network,
    adjacency: &Adjacency,
    centre: Location,
    radius: u32,
) -> Result<u32, Refusal> {
    let place = place(network, centre)?;
    if adjacency.nodes() != network.nodes() {
        return Err(Refusal { number: 2, place: 0 });
    }
    let starts: Vec<(usize, u32)> =
        ends(network, place).map(|(node, gap)| (node as usize - 1, gap)).collect();
    let mut cells = vec![NONE; network.nodes() as usize];
    // A node beyond the radius leads to no offset at the radius.
    dijkstra(adjacency, &starts, Some(radius), &mut cells);
    let radius = i64::from(radius);
    let mut count = cells.iter().filter(|&&cell| told(cell).is_some_and(|d| i64::from(d) == radius)).count() as u32;
    for index in 0..network.legs() {
        let length = i64::from(network.lengths()[index]);
        let u = told(cells[network.firsts()[index] as usize - 1]).map(i64::from);
        let v = told(cells[network.seconds()[index] as usize - 1]).map(i64::from);
        let own = match place {
            Place::Inside { leg, offset } if leg as usize == index + 1 => Some(i64::from(offset)),
            _ => None,
        };
        let distance = |x: i64| {
            let by_first = u.map(|u| u + x);
            let by_second = v.map(|v| v + length - x);
            let direct = own.map(|c| (c - x).abs());
            [by_first, by_second, direct].into_iter().flatten().min()
        };
        let tries = [
            u.map(|u| radius - u),
            v.map(|v| length - (radius - v)),
            own.map(|c| c - radius),
            own.map(|c| c + radius),
        ];
        for (k, x) in tries.iter().enumerate() {
            if let Some(x) = *x {
                let again = tries[..k].contains(&Some(x));
                if !again && x > 0 && x < length && distance(x) == Some(radius) {
                    count += 1;
                }
            }
        }
    }
    Ok(count)
}
