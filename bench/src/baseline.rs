//! What the library is measured against: the riding range and the ranks as one would write them in plain Rust, Dijkstra's
//! algorithm over a binary heap of the standard library, with neighbours worked out tile by tile from the formulas of the
//! dense index.

use crate::maps::{area, STEPS};
use std::cmp::Reverse;
use std::collections::BinaryHeap;

/// The effort of a tile that nobody may enter.
pub const BARRED: u16 = u16::MAX;

/// The total of a tile to which no way leads.
pub const NO_WAY: u32 = u32::MAX;

/// The rank of a tile from which no route leads to the end.
pub const NO_ROUTE: u64 = u64::MAX;

/// What one unit of cost counts in a rank.
const MULTIPLIER: u64 = 65_536;

/// The dense index of a tile, relative to the centre, or none where it is not of the map.
pub fn index_of(x: i64, y: i64, radius: i64) -> Option<usize> {
    if x.abs() > radius || y.abs() > radius || (x + y).abs() > radius {
        return None;
    }
    Some((y + (3 * radius + 2) * x).rem_euclid(area(radius)) as usize)
}

/// The tile, relative to the centre, that has a dense index.
pub fn tile_of(index: usize, radius: i64) -> (i64, i64) {
    let index = index as i64;
    let shifts = (index + radius) / (3 * radius + 2);
    let turns = (index + 2 * radius) / (3 * radius + 1);
    (
        shifts * (radius + 1) - turns * radius,
        index - shifts * (2 * radius + 1) - turns * (radius + 1),
    )
}

/// Fills the totals of the riding range from a start within a budget.
pub fn range(radius: i64, efforts: &[u16], start: usize, budget: u32, totals: &mut [u32]) {
    totals.fill(NO_WAY);
    totals[start] = 0;
    let mut open = BinaryHeap::new();
    open.push(Reverse((0u32, start as u32)));
    while let Some(Reverse((total, index))) = open.pop() {
        let index = index as usize;
        if total > totals[index] {
            continue;
        }
        let (x, y) = tile_of(index, radius);
        for (dx, dy) in STEPS {
            let Some(next) = index_of(x + dx, y + dy, radius) else {
                continue;
            };
            if efforts[next] == BARRED {
                continue;
            }
            let sum = total as u64 + efforts[next] as u64 + 1;
            if sum <= budget as u64 && sum < totals[next] as u64 {
                totals[next] = sum as u32;
                open.push(Reverse((sum as u32, next as u32)));
            }
        }
    }
}

/// What entering a tile adds to a rank.
fn weight(effort: u16) -> u64 {
    effort as u64 * MULTIPLIER + 1
}

/// Fills the rank of every tile to an end, over routes of open tiles.
pub fn ranks(radius: i64, efforts: &[u16], end: usize, ranks: &mut [u64]) {
    ranks.fill(NO_ROUTE);
    if efforts[end] == BARRED {
        return;
    }
    ranks[end] = 0;
    let mut open = BinaryHeap::new();
    open.push(Reverse((0u64, end as u32)));
    while let Some(Reverse((rank, index))) = open.pop() {
        let index = index as usize;
        if rank > ranks[index] {
            continue;
        }
        let (x, y) = tile_of(index, radius);
        let sum = rank + weight(efforts[index]);
        for (dx, dy) in STEPS {
            let Some(next) = index_of(x + dx, y + dy, radius) else {
                continue;
            };
            if efforts[next] != BARRED && sum < ranks[next] {
                ranks[next] = sum;
                open.push(Reverse((sum, next as u32)));
            }
        }
    }
}

/// The tiles of the best route, relative to the centre, down a table of ranks that has one for the start.
pub fn route(radius: i64, efforts: &[u16], ranks: &[u64], start: usize) -> Vec<(i64, i64)> {
    let mut index = start;
    let mut tiles = vec![tile_of(start, radius)];
    while ranks[index] > 0 {
        let (x, y) = tile_of(index, radius);
        let beside = STEPS.iter().filter_map(|(dx, dy)| index_of(x + dx, y + dy, radius));
        let mut open = beside.filter(|&next| ranks[next] != NO_ROUTE);
        index = open.find(|&next| ranks[next] + weight(efforts[next]) == ranks[index]).expect("a rank has a next tile");
        tiles.push(tile_of(index, radius));
    }
    tiles
}

/// What the neighbour rule wants at a tile: the smallest total beside it and the price of entering it.
fn wanted(radius: i64, efforts: &[u16], start: usize, budget: u32, totals: &[u32], index: usize) -> u32 {
    if index == start {
        return 0;
    }
    if efforts[index] == BARRED {
        return NO_WAY;
    }
    let (x, y) = tile_of(index, radius);
    let beside = STEPS.iter().filter_map(|(dx, dy)| index_of(x + dx, y + dy, radius));
    let smallest = beside.map(|next| totals[next]).filter(|total| *total != NO_WAY).min();
    match smallest.map(|total| total as u64 + efforts[index] as u64 + 1) {
        Some(sum) if sum <= budget as u64 => sum as u32,
        _ => NO_WAY,
    }
}

/// The lowest index at which a table breaks the neighbour rule.
pub fn lowest_broken(radius: i64, efforts: &[u16], start: usize, budget: u32, totals: &[u32]) -> Option<usize> {
    (0..totals.len()).find(|&index| totals[index] != wanted(radius, efforts, start, budget, totals, index))
}
