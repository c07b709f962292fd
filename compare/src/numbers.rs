//! Compares distances and the counts of rings and wedges.

use crate::distance::fits;
use crate::generator::Generator;
use crate::library::{kyrla_distance, kyrla_ring_count, kyrla_wedge_count};
use crate::samples::{LIMIT, pairs, random};
use crate::tally::Tally;
use hexx::Hex;

/// How many pairs of random tiles are asked for their distance.
const DISTANCES: usize = 200_000;

/// How far from 0 the coordinates of a distance lie, by turns. Of the widest not every pair is one that the crate can subtract.
const BOUNDS: [i32; 4] = [50, LIMIT, i32::MAX / 4, i32::MAX];

/// The crate's count of a wedge is right below this range.
const FIRST_WRONG: u32 = 65_535;

/// How many ring counts are asked at random ranges, after those of all small ones.
const RING_COUNTS: usize = 40_000;

pub fn compare(tally: &mut Tally) {
    distances(tally);
    counts(tally);
}

fn distances(tally: &mut Tally) {
    let generator = &mut Generator::new(0x0D15_7A4C_E000_0101);
    let outermost = pairs(&[0, 1, -1, i32::MAX, i32::MIN]);
    for &a in &outermost {
        outermost.iter().for_each(|&b| distance(tally, a, b));
    }
    for turn in 0..DISTANCES {
        // A pair that the crate cannot subtract is drawn again, so that each turn compares one.
        let bound = BOUNDS[turn % BOUNDS.len()];
        let mut draw = || [random(generator, bound), random(generator, bound)];
        let mut tiles = draw();
        while !fits(tiles[0], tiles[1]) {
            tiles = draw();
        }
        distance(tally, tiles[0], tiles[1]);
    }
}

/// Compares one distance, unless the crate would wrap a difference.
fn distance(tally: &mut Tally, a: Hex, b: Hex) {
    if fits(a, b) {
        let ours = kyrla_distance(a.x, a.y, b.x, b.y);
        let theirs = i64::from(a.unsigned_distance_to(b));
        tally.compare_number("kyrla_distance", &[a.x, a.y, b.x, b.y].map(i64::from), ours, theirs);
    }
}

fn counts(tally: &mut Tally) {
    let generator = &mut Generator::new(0x0C04_7000_0000_0102);
    for range in 0..FIRST_WRONG {
        ring_count(tally, range);
        let theirs = i64::from(Hex::wedge_count(range));
        tally.compare_number("kyrla_wedge_count", &[range.into()], kyrla_wedge_count(range) as i64, theirs);
    }
    ring_count(tally, u32::MAX);
    for _ in 0..RING_COUNTS {
        ring_count(tally, generator.between(i32::MIN, i32::MAX) as u32);
    }
}

fn ring_count(tally: &mut Tally, range: u32) {
    let theirs = Hex::ring_count(range) as i64;
    tally.compare_number("kyrla_ring_count", &[range.into()], kyrla_ring_count(range) as i64, theirs);
}
