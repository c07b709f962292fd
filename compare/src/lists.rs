//! Compares the lists of rings, ring edges, wedges, corner wedges and spirals, with every direction and sense.

use crate::generator::Generator;
use crate::library;
use crate::mapping::{edge, edge_clockwise, ring_clockwise, vertex};
use crate::pairs::UNTOUCHED;
use crate::samples::{Centres, LIMIT, random};
use crate::tally::Tally;
use hexx::Hex;

/// How many lists of each kind are asked for, after those of all ranges in every direction and sense.
const LISTS: usize = 25_000;

/// The largest range that a list may have.
const LARGEST: i32 = 1_000;

/// One list of so many has large ranges, since their lists are long.
const FAR: usize = 20;

/// A question in our numbers. A ring and an edge have the first range alone, and a corner wedge has no sense.
struct List {
    centre: Hex,
    ranges: [u32; 2],
    direction: u32,
    sense: u32,
    /// How many entries the run has that the list does not fill.
    over: usize,
}

pub fn compare(tally: &mut Tally) {
    let generator = &mut Generator::new(0x0415_7000_0000_0106);
    let centres = &mut Centres::new(0x0CE4_7435_0000_0107);
    for turn in 0..12 {
        let whole = List { centre: centres.next(), ranges: [0, LARGEST as u32], direction: turn / 2, sense: turn % 2, over: 1 };
        whole.compare_all(tally);
    }
    for turn in 0..LISTS {
        // Most of the centres that come in turn are at the limit, so each second one is drawn anywhere.
        let centre = if turn % 2 == 0 { centres.next() } else { random(generator, LIMIT) };
        list(generator, centre, turn).compare_all(tally);
    }
}

/// A question by turns: small ranges, some in any order, so that there are empty lists; middling ones; and now and then large ones that
/// lie close together.
fn list(generator: &mut Generator, centre: Hex, turn: usize) -> List {
    let mut between = |least, largest| generator.between(least, largest) as u32;
    let ranges = match turn / 2 % FAR {
        0 => {
            let first = between(0, LARGEST);
            [first, between(first as i32, LARGEST.min(first as i32 + 3))]
        }
        1..=5 => [between(0, 40), between(40, 60)],
        6..=8 => [between(0, 24), between(0, 24)],
        _ => {
            let first = between(0, 24);
            [first, between(first as i32, 24)]
        }
    };
    List { centre, ranges, direction: between(0, 5), sense: between(0, 1), over: between(0, 5) as usize }
}

impl List {
    /// Compares each kind of list that the numbers make.
    fn compare_all(&self, tally: &mut Tally) {
        ring(tally, self);
        ring_edge(tally, self);
        wedge(tally, self);
        corner_wedge(tally, self);
        spiral(tally, self);
    }

    /// Lends a run to the call, and compares it with the crate's tiles as they would lie in it.
    fn compare(&self, tally: &mut Tally, call: &str, asked: &[u32], tiles: Vec<Hex>, ours: impl FnOnce(&mut [i32]) -> i64) {
        let mut filled: Vec<i32> = tiles.iter().flat_map(|tile| tile.to_array()).collect();
        filled.resize(filled.len() + self.over, UNTOUCHED);
        let mut run = vec![UNTOUCHED; filled.len()];
        let answer = ours(&mut run);
        let mut arguments = self.centre.to_array().map(i64::from).to_vec();
        arguments.extend(asked.iter().map(|&number| i64::from(number)));
        arguments.push(run.len() as i64);
        tally.compare(call, &arguments, (answer, &run), (tiles.len() as i64, &filled));
    }
}

fn ring(tally: &mut Tally, list: &List) {
    let List { centre, ranges: [range, _], direction, sense, .. } = *list;
    let tiles = centre.custom_ring(range, edge(direction as usize), ring_clockwise(sense as usize)).collect();
    let ours = |run: &mut [i32]| library::ring(centre, range, direction, sense, run);
    list.compare(tally, "kyrla_ring", &[range, direction, sense], tiles, ours);
}

fn ring_edge(tally: &mut Tally, list: &List) {
    let List { centre, ranges: [range, _], direction, sense, .. } = *list;
    let tiles = centre.custom_ring_edge(range, vertex(direction as usize), edge_clockwise(sense as usize)).collect();
    let ours = |run: &mut [i32]| library::ring_edge(centre, range, direction, sense, run);
    list.compare(tally, "kyrla_ring_edge", &[range, direction, sense], tiles, ours);
}

fn wedge(tally: &mut Tally, list: &List) {
    let List { centre, ranges: [first, last], direction, sense, .. } = *list;
    let tiles = centre.custom_wedge(first..=last, vertex(direction as usize), edge_clockwise(sense as usize)).collect();
    let ours = |run: &mut [i32]| library::wedge(centre, [first, last], direction, sense, run);
    list.compare(tally, "kyrla_wedge", &[first, last, direction, sense], tiles, ours);
}

fn corner_wedge(tally: &mut Tally, list: &List) {
    let List { centre, ranges: [first, last], direction, .. } = *list;
    let tiles = centre.corner_wedge(first..=last, edge(direction as usize)).collect();
    let ours = |run: &mut [i32]| library::corner_wedge(centre, [first, last], direction, run);
    list.compare(tally, "kyrla_corner_wedge", &[first, last, direction], tiles, ours);
}

fn spiral(tally: &mut Tally, list: &List) {
    let List { centre, ranges: [first, last], direction, sense, .. } = *list;
    let tiles = centre.custom_spiral_range(first..=last, edge(direction as usize), ring_clockwise(sense as usize)).collect();
    let ours = |run: &mut [i32]| library::spiral(centre, [first, last], direction, sense, run);
    list.compare(tally, "kyrla_spiral", &[first, last, direction, sense], tiles, ours);
}
