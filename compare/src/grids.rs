//! Compares the conversions to and from offset and doubled grids.

use crate::generator::Generator;
use crate::library;
use crate::mapping::{doubled_mode, offset_mode, orientation};
use crate::pairs::compare as compare_pair;
use crate::samples::{CHOSEN, LIMIT, pairs, random, within_limit};
use crate::tally::Tally;
use hexx::Hex;

/// How many tiles are converted to each kind of grid, and how many pairs back.
const TILES: usize = 102_000;

/// How far from 0 a tile near the middle lies at most, and how far from the limit one at the edge.
const NEAR: i32 = 500;

pub fn compare(tally: &mut Tally) {
    let generator = &mut Generator::new(0x0FF5_E700_0000_0103);
    for tile in pairs(&CHOSEN) {
        for grid in [[0, 0], [0, 1], [1, 0], [1, 1]] {
            to_offset(tally, tile, grid);
            from_offset(tally, crate_to_offset(tile, grid), grid);
            to_doubled(tally, tile, grid[0]);
            from_doubled(tally, crate_to_doubled(tile, grid[0]), grid[0]);
        }
    }
    for turn in 0..TILES {
        // The grids go by turns of four, so that they meet every kind of tile, which goes by turns of three.
        let grid = [turn as u32 % 2, turn as u32 / 2 % 2];
        to_offset(tally, tile(generator, turn), grid);
        from_offset(tally, any_offset_pair(generator, turn, grid), grid);
        let mode = grid[0];
        to_doubled(tally, tile(generator, turn), mode);
        from_doubled(tally, any_doubled_pair(generator, turn, mode), mode);
    }
}

/// A tile near the middle, anywhere within the limit, or near a corner of the limit, by turns.
fn tile(generator: &mut Generator, turn: usize) -> Hex {
    let mut edge = || (LIMIT - generator.between(0, NEAR)) * (2 * generator.between(0, 1) - 1);
    match turn % 3 {
        0 => Hex::new(edge(), edge()),
        1 => random(generator, NEAR),
        _ => random(generator, LIMIT),
    }
}

fn crate_to_offset(tile: Hex, [mode, oriented]: [u32; 2]) -> [i32; 2] {
    tile.to_offset_coordinates(offset_mode(mode as usize), orientation(oriented as usize))
}

fn crate_from_offset(pair: [i32; 2], [mode, oriented]: [u32; 2]) -> Hex {
    Hex::from_offset_coordinates(pair, offset_mode(mode as usize), orientation(oriented as usize))
}

fn crate_to_doubled(tile: Hex, mode: u32) -> [i32; 2] {
    tile.to_doubled_coordinates(doubled_mode(mode as usize))
}

fn crate_from_doubled(pair: [i32; 2], mode: u32) -> Hex {
    Hex::from_doubled_coordinates(pair, doubled_mode(mode as usize))
}

fn to_offset(tally: &mut Tally, tile: Hex, grid: [u32; 2]) {
    let arguments = [tile.x.into(), tile.y.into(), grid[0].into(), grid[1].into()];
    let ours = |run: &mut [i32]| library::to_offset(tile, grid, run);
    compare_pair(tally, "kyrla_to_offset", &arguments, ours, Some(crate_to_offset(tile, grid)));
}

fn from_offset(tally: &mut Tally, pair: [i32; 2], grid: [u32; 2]) {
    let arguments = [pair[0].into(), pair[1].into(), grid[0].into(), grid[1].into()];
    let ours = |run: &mut [i32]| library::from_offset(pair, grid, run);
    compare_pair(tally, "kyrla_from_offset", &arguments, ours, Some(crate_from_offset(pair, grid).to_array()));
}

fn to_doubled(tally: &mut Tally, tile: Hex, mode: u32) {
    let arguments = [tile.x.into(), tile.y.into(), mode.into()];
    let ours = |run: &mut [i32]| library::to_doubled(tile, mode, run);
    compare_pair(tally, "kyrla_to_doubled", &arguments, ours, Some(crate_to_doubled(tile, mode)));
}

fn from_doubled(tally: &mut Tally, pair: [i32; 2], mode: u32) {
    let arguments = [pair[0].into(), pair[1].into(), mode.into()];
    let ours = |run: &mut [i32]| library::from_doubled(pair, mode, run);
    compare_pair(tally, "kyrla_from_doubled", &arguments, ours, Some(crate_from_doubled(pair, mode).to_array()));
}

/// A pair whose tile is within the limit. Half of them the crate makes from a tile, which meets the outermost tiles; half are drawn
/// without asking the crate for a pair, which meets pairs that its way there might never make.
fn any_offset_pair(generator: &mut Generator, turn: usize, grid: [u32; 2]) -> [i32; 2] {
    if turn / 4 % 2 == 0 {
        return crate_to_offset(tile(generator, turn), grid);
    }
    // Half a limit more is as far as the outermost columns and rows go.
    drawn(generator, LIMIT / 2 * 3, |pair| within_limit(crate_from_offset(pair, grid)))
}

/// A pair with an even sum whose tile is within the limit, by the same halves.
fn any_doubled_pair(generator: &mut Generator, turn: usize, mode: u32) -> [i32; 2] {
    if turn / 4 % 2 == 0 {
        return crate_to_doubled(tile(generator, turn), mode);
    }
    let even = |[column, row]: [i32; 2]| (column + row) % 2 == 0;
    drawn(generator, LIMIT * 3, |pair| even(pair) && within_limit(crate_from_doubled(pair, mode)))
}

/// Draws pairs until one is as wanted.
fn drawn(generator: &mut Generator, bound: i32, wanted: impl Fn([i32; 2]) -> bool) -> [i32; 2] {
    loop {
        let pair = random(generator, bound).to_array();
        if wanted(pair) {
            return pair;
        }
    }
}
