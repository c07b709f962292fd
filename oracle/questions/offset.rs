//! Questions about offset grids, both ways.

use crate::generator::Generator;
use crate::mapping::{offset_mode, orientation};
use crate::samples::{CHOSEN, LIMIT, OUTERMOST, pairs, randoms, within_limit};
use crate::sheet::{ACCEPTED, FROM_OFFSET, Sheet, TO_OFFSET};
use hexx::Hex;

/// The four pairs of a mode and an orientation.
const GRIDS: [(usize, usize); 4] = [(0, 0), (0, 1), (1, 0), (1, 1)];

fn line(sheet: &mut Sheet, kind: i64, asked: [i32; 2], grid: (usize, usize), answer: [i32; 2]) {
    let [a, b] = asked.map(i64::from);
    let [c, d] = answer.map(i64::from);
    sheet.line(&[kind, a, b, grid.0 as i64, grid.1 as i64, ACCEPTED, c, d]);
}

fn pair_of(tile: Hex, grid: (usize, usize)) -> [i32; 2] {
    tile.to_offset_coordinates(offset_mode(grid.0), orientation(grid.1))
}

fn tile_of(pair: [i32; 2], grid: (usize, usize)) -> Hex {
    Hex::from_offset_coordinates(pair, offset_mode(grid.0), orientation(grid.1))
}

/// Asks for the pair of one tile on each grid.
fn to_offset(sheet: &mut Sheet, tile: Hex) {
    for grid in GRIDS {
        line(sheet, TO_OFFSET, tile.to_array(), grid, pair_of(tile, grid));
    }
}

/// Asks for the tile of one pair on one grid.
fn from_offset(sheet: &mut Sheet, pair: [i32; 2], grid: (usize, usize)) {
    let tile = tile_of(pair, grid);
    line(sheet, FROM_OFFSET, pair, grid, tile.to_array());
}

pub fn ask(sheet: &mut Sheet) {
    let generator = &mut Generator::new(0x0FF5_E700_0000_0002);
    sheet.comment(
        "2 to offset: 2 x y mode orientation number column row\n\
         The mode is 0 for Even and 1 for Odd; the orientation is 0 for Flat and 1 for Pointy.",
    );
    for tile in pairs(&CHOSEN) {
        to_offset(sheet, tile);
    }
    for tile in randoms(generator, 40) {
        to_offset(sheet, tile);
    }
    sheet.comment(
        "3 from offset: 3 column row mode orientation number x y\n\
         The mode and the orientation are numbered as in kind 2.",
    );
    ask_back(sheet, generator);
}

/// Asks for the tiles of pairs that the crate made from tiles, and of pairs
/// chosen directly, which are kept if their tile is within the limit.
fn ask_back(sheet: &mut Sheet, generator: &mut Generator) {
    let mut tiles = pairs(&OUTERMOST);
    tiles.extend(randoms(generator, 30));
    for tile in tiles {
        for grid in GRIDS {
            from_offset(sheet, pair_of(tile, grid), grid);
        }
    }
    for chosen in pairs(&CHOSEN) {
        for grid in GRIDS {
            let pair = chosen.to_array();
            if within_limit(tile_of(pair, grid)) {
                from_offset(sheet, pair, grid);
            }
        }
    }
}

/// Tiles beyond the limit; the last ones make the crate wrap round as well.
const BEYOND: [[i32; 2]; 6] = [
    [LIMIT + 1, 0],
    [0, LIMIT + 1],
    [-LIMIT - 1, 0],
    [0, -LIMIT - 1],
    [i32::MAX, i32::MAX],
    [i32::MIN, i32::MIN],
];

/// Pairs whose tile is beyond the limit on every grid; with the last ones the
/// crate wraps round as well.
const BEYOND_BACK: [[i32; 2]; 6] = [
    [LIMIT + 1, 0],
    [0, LIMIT + 1],
    [LIMIT, -LIMIT],
    [-LIMIT, LIMIT],
    [i32::MAX, i32::MIN],
    [i32::MIN, i32::MAX],
];

pub fn differences(sheet: &mut Sheet) {
    sheet.comment(
        "2 to offset, of a tile beyond the limit: the crate converts it.\n\
         The paper refuses it with number 1 and answers zeros.",
    );
    for tile in BEYOND {
        to_offset(sheet, Hex::from_array(tile));
    }
    sheet.comment(
        "3 from offset, of a pair whose tile is beyond the limit: the crate answers a tile.\n\
         The paper refuses it with number 1 and answers zeros.",
    );
    for pair in BEYOND_BACK {
        for grid in GRIDS {
            from_offset(sheet, pair, grid);
        }
    }
}
