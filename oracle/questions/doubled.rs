//! Questions about doubled grids, both ways.

use crate::generator::Generator;
use crate::mapping::doubled_mode;
use crate::samples::{CHOSEN, LIMIT, OUTERMOST, pairs, randoms, within_limit};
use crate::sheet::{ACCEPTED, FROM_DOUBLED, Sheet, TO_DOUBLED};
use hexx::Hex;

fn line(sheet: &mut Sheet, kind: i64, asked: [i32; 2], mode: usize, answer: [i32; 2]) {
    let [a, b] = asked.map(i64::from);
    let [c, d] = answer.map(i64::from);
    sheet.line(&[kind, a, b, mode as i64, ACCEPTED, c, d]);
}

fn pair_of(tile: Hex, mode: usize) -> [i32; 2] {
    tile.to_doubled_coordinates(doubled_mode(mode))
}

fn tile_of(pair: [i32; 2], mode: usize) -> Hex {
    Hex::from_doubled_coordinates(pair, doubled_mode(mode))
}

/// Says whether column and row add up to an even number, as they do for every tile.
fn even([column, row]: [i32; 2]) -> bool {
    (i64::from(column) + i64::from(row)) % 2 == 0
}

/// Asks for the pair of one tile in each mode.
fn to_doubled(sheet: &mut Sheet, tile: Hex) {
    for mode in 0..2 {
        line(
            sheet,
            TO_DOUBLED,
            tile.to_array(),
            mode,
            pair_of(tile, mode),
        );
    }
}

/// Asks for the tile of one pair in one mode.
fn from_doubled(sheet: &mut Sheet, pair: [i32; 2], mode: usize) {
    let tile = tile_of(pair, mode);
    line(sheet, FROM_DOUBLED, pair, mode, tile.to_array());
}

pub fn ask(sheet: &mut Sheet) {
    let generator = &mut Generator::new(0x0D0B_1ED0_0000_0003);
    sheet.comment(
        "4 to doubled: 4 x y mode number column row\n\
         The mode is 0 for DoubledWidth and 1 for DoubledHeight.",
    );
    for tile in pairs(&CHOSEN) {
        to_doubled(sheet, tile);
    }
    for tile in randoms(generator, 50) {
        to_doubled(sheet, tile);
    }
    sheet.comment(
        "5 from doubled: 5 column row mode number x y\n\
         The mode is numbered as in kind 4; column and row add up to an even number.",
    );
    ask_back(sheet, generator);
}

/// Asks for the tiles of pairs that the crate made from tiles, and of even pairs
/// chosen directly, which are kept if their tile is within the limit.
fn ask_back(sheet: &mut Sheet, generator: &mut Generator) {
    let mut tiles = pairs(&OUTERMOST);
    tiles.extend(randoms(generator, 50));
    for tile in tiles {
        for mode in 0..2 {
            from_doubled(sheet, pair_of(tile, mode), mode);
        }
    }
    for chosen in pairs(&CHOSEN) {
        for mode in 0..2 {
            let pair = chosen.to_array();
            if even(pair) && within_limit(tile_of(pair, mode)) {
                from_doubled(sheet, pair, mode);
            }
        }
    }
}

/// Tiles beyond the limit; the last ones make the crate wrap round as well.
const BEYOND: [[i32; 2]; 6] = [
    [LIMIT + 1, 0],
    [0, LIMIT + 1],
    [-LIMIT - 1, 0],
    [0, -LIMIT - 1],
    [i32::MAX, i32::MAX],
    [i32::MIN, i32::MIN],
];

/// Pairs that add up to an odd number.
const ODD: [[i32; 2]; 8] = [
    [1, 0],
    [0, 1],
    [-1, 0],
    [0, -1],
    [3, 2],
    [-3, 2],
    [LIMIT, LIMIT - 1],
    [1 - LIMIT, -LIMIT],
];

/// Even pairs whose tile is beyond the limit in both modes; with the last ones
/// the crate wraps round as well.
const BEYOND_BACK: [[i32; 2]; 8] = [
    [LIMIT + 1, LIMIT + 1],
    [-LIMIT - 1, -LIMIT - 1],
    [2 * LIMIT + 2, 0],
    [0, 2 * LIMIT + 2],
    [-2 * LIMIT - 2, 0],
    [0, -2 * LIMIT - 2],
    [i32::MAX, -LIMIT + 1],
    [i32::MIN, LIMIT],
];

pub fn differences(sheet: &mut Sheet) {
    sheet.comment(
        "4 to doubled, of a tile beyond the limit: the crate converts it.\n\
         The paper refuses it with number 1 and answers zeros.",
    );
    for tile in BEYOND {
        to_doubled(sheet, Hex::from_array(tile));
    }
    sheet.comment(
        "5 from doubled, of a pair that adds up to an odd number: the crate halves it towards 0.\n\
         The paper refuses it with number 4 and answers zeros, since no tile has that pair.",
    );
    for pair in ODD {
        for mode in 0..2 {
            from_doubled(sheet, pair, mode);
        }
    }
    sheet.comment(
        "5 from doubled, of an even pair whose tile is beyond the limit: the crate answers a tile.\n\
         The paper refuses it with number 1 and answers zeros.",
    );
    for pair in BEYOND_BACK {
        for mode in 0..2 {
            from_doubled(sheet, pair, mode);
        }
    }
}
