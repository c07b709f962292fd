//! The maps that are measured on: efforts by dense index, and the tile that the ride starts from.

use crate::baseline::{self, index_of, BARRED, NO_ROUTE};

/// The six steps, in the order of their direction numbers.
pub const STEPS: [(i64, i64); 6] = [(1, 0), (1, -1), (0, -1), (-1, 0), (-1, 1), (0, 1)];

/// Efforts over a map whose centre is (0, 0).
pub struct Land {
    pub name: &'static str,
    pub radius: i64,
    pub efforts: Vec<u16>,
    pub start: (i64, i64),
}

impl Land {
    /// The dense index of the start.
    pub fn start_index(&self) -> usize {
        index_of(self.start.0, self.start.1, self.radius).expect("the start is of the map")
    }

    /// The dense index of the tile whose way to the start ranks last.
    pub fn farthest_index(&self) -> usize {
        let mut ranks = vec![0; self.efforts.len()];
        baseline::ranks(self.radius, &self.efforts, self.start_index(), &mut ranks);
        let ranked = (0..ranks.len()).filter(|&index| ranks[index] != NO_ROUTE);
        ranked.max_by_key(|&index| ranks[index]).expect("the start has a rank")
    }
}

/// How many tiles a map has.
pub fn area(radius: i64) -> i64 {
    3 * radius * (radius + 1) + 1
}

/// Numbers that look random and are the same in every run.
struct Numbers(u64);

impl Numbers {
    fn below(&mut self, limit: u64) -> u64 {
        self.0 ^= self.0 << 13;
        self.0 ^= self.0 >> 7;
        self.0 ^= self.0 << 17;
        (self.0 >> 16) % limit
    }
}

/// The five maps of a radius. The first three are open, the last two are each one long corridor.
pub fn all(radius: i64) -> Vec<Land> {
    vec![
        open("zeros", radius, |_| 0),
        open("random", radius, |numbers| numbers.below(BARRED as u64) as u16),
        open("30 % barred", radius, |numbers| {
            if numbers.below(100) < 30 {
                BARRED
            } else {
                numbers.below(BARRED as u64) as u16
            }
        }),
        corridor("serpentine", radius, &rows(radius / 2)),
        corridor("spiral", radius, &rings(radius / 2)),
    ]
}

/// A map whose efforts are drawn one by one, ridden from its centre.
fn open(name: &'static str, radius: i64, draw: fn(&mut Numbers) -> u16) -> Land {
    let mut numbers = Numbers(0x9E37_79B9_7F4A_7C15);
    let efforts = (0..area(radius)).map(|_| draw(&mut numbers)).collect();
    Land { name, radius, efforts, start: (0, 0) }
}

/// A map of which one corridor alone is open. It follows a walk over a map of half the radius, drawn at double size: each
/// tile of the walk and the tile half way to the next one. Where the walk passes beside itself, a barred tile is left between.
fn corridor(name: &'static str, radius: i64, walk: &[(i64, i64)]) -> Land {
    let mut efforts = vec![BARRED; area(radius) as usize];
    let mut clear = |x: i64, y: i64| efforts[index_of(x, y, radius).expect("the walk is of the map")] = 0;
    for pair in walk.windows(2) {
        clear(2 * pair[0].0, 2 * pair[0].1);
        clear(pair[0].0 + pair[1].0, pair[0].1 + pair[1].1);
        clear(2 * pair[1].0, 2 * pair[1].1);
    }
    Land { name, radius, efforts, start: (2 * walk[0].0, 2 * walk[0].1) }
}

/// Every tile of a map, row by row, to and fro.
fn rows(radius: i64) -> Vec<(i64, i64)> {
    let mut walk = Vec::new();
    for y in -radius..=radius {
        let row = (-radius).max(-radius - y)..=radius.min(radius - y);
        if (y + radius) % 2 == 0 {
            walk.extend(row.map(|x| (x, y)));
        } else {
            walk.extend(row.rev().map(|x| (x, y)));
        }
    }
    walk
}

/// Every tile of a map, ring by ring from the centre outward.
fn rings(radius: i64) -> Vec<(i64, i64)> {
    let mut walk = vec![(0, 0)];
    let mut at = (0, 0);
    let mut go = |step: (i64, i64), times: i64| {
        for _ in 0..times {
            at = (at.0 + step.0, at.1 + step.1);
            walk.push(at);
        }
    };
    for n in 1..=radius {
        go(STEPS[0], 1);
        go(STEPS[1], n - 1);
        for side in 2..=5 {
            go(STEPS[side], n);
        }
        go(STEPS[0], n);
    }
    walk
}
