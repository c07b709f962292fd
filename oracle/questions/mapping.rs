//! The one place where our numbers are turned into the crate's, and the checks
//! that this is done rightly. The program stops when a check fails.

use crate::stop;
use hexx::{DoubledHexMode, EdgeDirection, Hex, HexOrientation, OffsetHexMode, VertexDirection};

/// Our six steps, in the order of our direction numbers.
const STEPS: [Hex; 6] = [
    Hex::new(1, 0),
    Hex::new(1, -1),
    Hex::new(0, -1),
    Hex::new(-1, 0),
    Hex::new(-1, 1),
    Hex::new(0, 1),
];

/// The crate's edge direction of our direction, which it numbers the other way round.
pub fn edge(direction: usize) -> EdgeDirection {
    EdgeDirection::ALL_DIRECTIONS[(6 - direction % 6) % 6]
}

/// Our number of the crate's edge direction.
pub fn direction(edge: EdgeDirection) -> usize {
    (6 - usize::from(edge.index())) % 6
}

/// The crate's vertex direction of our vertex, which lies between our directions v and v+1.
pub fn vertex(vertex: usize) -> VertexDirection {
    VertexDirection::ALL_DIRECTIONS[(6 - vertex % 6) % 6]
}

/// The crate's flag for our turning sense of a ring or a spiral.
pub fn ring_clockwise(sense: usize) -> bool {
    sense == 0
}

/// The crate's flag for our turning sense of a ring edge or a wedge.
pub fn edge_clockwise(sense: usize) -> bool {
    sense == 1
}

pub fn offset_mode(mode: usize) -> OffsetHexMode {
    [OffsetHexMode::Even, OffsetHexMode::Odd][mode]
}

pub fn orientation(orientation: usize) -> HexOrientation {
    [HexOrientation::Flat, HexOrientation::Pointy][orientation]
}

pub fn doubled_mode(mode: usize) -> DoubledHexMode {
    [DoubledHexMode::DoubledWidth, DoubledHexMode::DoubledHeight][mode]
}

/// Makes every check of this file.
pub fn check() {
    check_directions();
    check_vertices();
    check_modes();
    for number in 0..6 {
        for sense in 0..2 {
            check_rings(number, sense);
            check_edges(number, sense);
        }
        check_corners(number);
    }
}

fn demand(holds: bool, what: &str) {
    if !holds {
        stop(&format!("the mapping is wrong: {what}"));
    }
}

/// Our step in a direction, whose number is taken modulo 6.
fn step(direction: usize) -> Hex {
    STEPS[direction % 6]
}

fn check_directions() {
    for d in 0..6 {
        demand(
            edge(d).into_hex() == step(d),
            &format!("the step of direction {d}"),
        );
        demand(
            direction(edge(d)) == d,
            &format!("the way back of direction {d}"),
        );
    }
}

/// A vertex lies between two directions, so its own step is the sum of theirs.
fn check_vertices() {
    for v in 0..6 {
        let beside = [edge(v + 1), edge(v)];
        let between = vertex(v).edge_directions() == beside;
        let sum = vertex(v).into_hex() == step(v) + step(v + 1);
        demand(between && sum, &format!("the place of vertex {v}"));
    }
}

/// Both coordinates of the tile (-3, 5) are odd, so all modes and orientations differ on it.
fn check_modes() {
    let tile = Hex::new(-3, 5);
    let offset = |m, o| tile.to_offset_coordinates(offset_mode(m), orientation(o));
    demand(offset(0, 0) == [-3, 4], "offset Even 0, Flat 0");
    demand(offset(1, 0) == [-3, 3], "offset Odd 1, Flat 0");
    demand(offset(0, 1) == [0, 5], "offset Even 0, Pointy 1");
    demand(offset(1, 1) == [-1, 5], "offset Odd 1, Pointy 1");
    let doubled = |m| tile.to_doubled_coordinates(doubled_mode(m));
    demand(doubled(0) == [-1, 5], "doubled width 0");
    demand(doubled(1) == [-3, 7], "doubled height 1");
}

/// A centre off the origin and the ranges that every turn is checked at.
const CENTRE: Hex = Hex::new(5, -3);
const RANGES: std::ops::RangeInclusive<u32> = 0..=4;

/// The tiles from `start` on, `count` steps in the direction, without the start.
fn walk(start: Hex, direction: usize, count: u32) -> impl Iterator<Item = Hex> {
    (1..=count).map(move |i| start + step(direction) * i as i32)
}

/// A ring by our rule: from its first tile along d+2, d+3, .. or along d+4, d+3, ..
fn our_ring(range: u32, d: usize, sense: usize) -> Vec<Hex> {
    let mut tiles = vec![CENTRE + step(d) * range as i32];
    for side in 0..6 {
        let along = if sense == 0 {
            d + 2 + side
        } else {
            d + 10 - side
        };
        tiles.extend(walk(*tiles.last().unwrap(), along, range));
    }
    // The last side leads back to the first tile, which is listed once.
    if range > 0 {
        tiles.pop();
    }
    tiles
}

fn check_rings(d: usize, sense: usize) {
    let clockwise = ring_clockwise(sense);
    let mut spiral = Vec::new();
    for n in RANGES {
        let theirs: Vec<Hex> = CENTRE.custom_ring(n, edge(d), clockwise).collect();
        let what = format!("the ring of range {n}, direction {d}, sense {sense}");
        demand(theirs == our_ring(n, d, sense), &what);
        spiral.extend(our_ring(n, d, sense));
    }
    let theirs: Vec<Hex> = CENTRE
        .custom_spiral_range(RANGES, edge(d), clockwise)
        .collect();
    demand(
        theirs == spiral,
        &format!("the spiral of direction {d}, sense {sense}"),
    );
}

/// A ring edge by our rule: from n steps along v it goes along v+2, or from
/// n steps along v+1 it goes along v+5.
fn our_edge(range: u32, v: usize, sense: usize) -> Vec<Hex> {
    let (out, along) = if sense == 0 {
        (v, v + 2)
    } else {
        (v + 1, v + 5)
    };
    let start = CENTRE + step(out) * range as i32;
    let mut tiles = vec![start];
    tiles.extend(walk(start, along, range));
    tiles
}

fn check_edges(v: usize, sense: usize) {
    let clockwise = edge_clockwise(sense);
    let mut wedge = Vec::new();
    for n in RANGES {
        let theirs: Vec<Hex> = CENTRE.custom_ring_edge(n, vertex(v), clockwise).collect();
        let what = format!("the edge of range {n}, vertex {v}, sense {sense}");
        demand(theirs == our_edge(n, v, sense), &what);
        wedge.extend(our_edge(n, v, sense));
    }
    let theirs: Vec<Hex> = CENTRE.custom_wedge(RANGES, vertex(v), clockwise).collect();
    demand(
        theirs == wedge,
        &format!("the wedge of vertex {v}, sense {sense}"),
    );
}

/// A corner wedge has no sense: it goes half a side along d+2, then along d+4.
fn check_corners(d: usize) {
    let mut ours = Vec::new();
    for n in RANGES {
        let start = CENTRE + step(d) * n as i32;
        ours.push(start);
        ours.extend(walk(start, d + 2, n / 2));
        ours.extend(walk(start, d + 4, n / 2));
    }
    let theirs: Vec<Hex> = CENTRE.corner_wedge(RANGES, edge(d)).collect();
    demand(
        theirs == ours,
        &format!("the corner wedge of direction {d}"),
    );
}
