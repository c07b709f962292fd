//! Questions about the six directions.

use crate::generator::Generator;
use crate::mapping::{direction, edge};
use crate::samples::{LIMIT, pairs, randoms};
use crate::sheet::{ACCEPTED, NEIGHBOR, OPPOSITE, Sheet, TURNED};
use hexx::Hex;

/// Asks for the six neighbours of one tile.
fn neighbors(sheet: &mut Sheet, tile: Hex) {
    let [x, y] = tile.to_array().map(i64::from);
    for d in 0..6 {
        let [a, b] = tile.neighbor(edge(d)).to_array().map(i64::from);
        sheet.line(&[NEIGHBOR, x, y, d as i64, ACCEPTED, a, b]);
    }
}

pub fn ask(sheet: &mut Sheet) {
    let generator = &mut Generator::new(0x0D1E_C710_0000_0004);
    sheet.comment(
        "6 neighbor: 6 x y direction number x' y'\n\
         The tile is within the limit; its neighbour may be one step beyond it.",
    );
    for tile in pairs(&[0, 1, -1, 999_999, -999_999, LIMIT, -LIMIT]) {
        neighbors(sheet, tile);
    }
    for tile in randoms(generator, 20) {
        neighbors(sheet, tile);
    }
    sheet.comment("7 opposite: 7 direction opposite");
    for d in 0..6 {
        let answer = direction(edge(d).const_neg());
        sheet.line(&[OPPOSITE, d as i64, answer as i64]);
    }
    sheet.comment("8 turned: 8 direction by turned");
    for d in 0..6 {
        for by in 0..12 {
            // Our numbers rise counter clockwise as the crate sees it.
            let answer = direction(edge(d).rotate_ccw(by));
            sheet.line(&[TURNED, d as i64, i64::from(by), answer as i64]);
        }
    }
}
