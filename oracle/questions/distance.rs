//! Questions about the distance between two tiles.

use crate::generator::Generator;
use crate::samples::{CHOSEN, LIMIT, pairs, random, randoms};
use crate::sheet::{DISTANCE, Sheet};
use crate::stop;
use hexx::Hex;

/// Both ends of the signed 32-bit numbers.
const TOP: i32 = i32::MAX;
const BOTTOM: i32 = i32::MIN;

/// Says whether every difference that the crate takes is a signed 32-bit number,
/// so that its answer is exact.
pub fn fits(a: Hex, b: Hex) -> bool {
    let dx = i64::from(a.x) - i64::from(b.x);
    let dy = i64::from(a.y) - i64::from(b.y);
    [dx, dy, dx + dy].iter().all(|&d| i32::try_from(d).is_ok())
}

/// The distance in whole numbers, for the comments on the crate's differences.
fn exact(a: Hex, b: Hex) -> i64 {
    let dx = i64::from(a.x) - i64::from(b.x);
    let dy = i64::from(a.y) - i64::from(b.y);
    dx.abs().max(dy.abs()).max((dx + dy).abs())
}

fn line(sheet: &mut Sheet, a: Hex, b: Hex, distance: i64) {
    let [ax, ay, bx, by] = [a.x, a.y, b.x, b.y].map(i64::from);
    sheet.line(&[DISTANCE, ax, ay, bx, by, distance]);
}

/// Asks for one pair of tiles and leaves out a pair that passes 32 bits.
fn accepted(sheet: &mut Sheet, a: Hex, b: Hex) {
    if fits(a, b) {
        line(sheet, a, b, i64::from(a.unsigned_distance_to(b)));
    }
}

pub fn ask(sheet: &mut Sheet) {
    sheet.comment(
        "1 distance: 1 ax ay bx by distance\n\
         The differences and their sum are signed 32-bit numbers.",
    );
    let generator = &mut Generator::new(0x0D15_7A4C_E000_0001);
    let chosen = pairs(&CHOSEN);
    for &tile in &chosen {
        accepted(sheet, tile, Hex::ZERO);
        let other = chosen[generator.between(0, chosen.len() as i32 - 1) as usize];
        accepted(sheet, tile, other);
    }
    for tile in randoms(generator, 160) {
        let other = random(generator, LIMIT);
        accepted(sheet, tile, other);
        accepted(sheet, other, tile);
    }
    ask_wide(sheet, generator);
}

/// Asks about tiles as far out as 32 bits go, which the paper accepts too.
fn ask_wide(sheet: &mut Sheet, generator: &mut Generator) {
    for tile in pairs(&[0, 1, -1, TOP, BOTTOM]) {
        accepted(sheet, tile, Hex::ZERO);
        accepted(sheet, Hex::ZERO, tile);
        accepted(sheet, tile, tile);
    }
    for _ in 0..60 {
        let a = random(generator, TOP);
        let b = random(generator, TOP);
        accepted(sheet, a, b);
    }
    // Nearer tiles, of which fewer pairs pass 32 bits.
    for _ in 0..60 {
        let a = random(generator, TOP / 3);
        let b = random(generator, TOP / 3);
        accepted(sheet, a, b);
    }
}

/// The pairs at which the crate's unsigned answer is not the distance.
/// The first has the smallest coordinates of all.
const PASSING: [[i32; 4]; 9] = [
    [536_870_913, 536_870_912, -536_870_912, -536_870_912],
    [-536_870_912, -536_870_912, 536_870_913, 536_870_912],
    [1_073_741_825, 1_073_741_824, 0, 0],
    [TOP, 0, -2, 0],
    [0, TOP, 0, -2],
    [TOP, 0, BOTTOM, 0],
    [0, BOTTOM, 0, TOP],
    [TOP, TOP, 0, 0],
    [TOP, TOP, BOTTOM, BOTTOM],
];

/// The pairs at which the crate's signed answer is wrong and its unsigned one is
/// right. The first has the smallest coordinates of all.
const NEGATIVE: [[i32; 4]; 3] = [
    [536_870_912, 536_870_912, -536_870_912, -536_870_912],
    [BOTTOM, 0, 0, 0],
    [0, BOTTOM, 0, 0],
];

/// Writes the crate's answer below the exact one, from which it must differ.
fn different(sheet: &mut Sheet, a: Hex, b: Hex, answer: i64) {
    if answer == exact(a, b) {
        stop("a distance listed as a difference is exact");
    }
    sheet.comment(&format!("exact {}", exact(a, b)));
    line(sheet, a, b, answer);
}

pub fn differences(sheet: &mut Sheet) {
    sheet.comment(
        "1 distance, where a difference passes 32 bits: the crate wraps round.\n\
         The paper never refuses a distance and answers it exactly.",
    );
    for [ax, ay, bx, by] in PASSING {
        let (a, b) = (Hex::new(ax, ay), Hex::new(bx, by));
        different(sheet, a, b, i64::from(a.unsigned_distance_to(b)));
    }
    sheet.comment(
        "1 distance by the crate's signed call, where the distance is 2147483648.\n\
         The crate's unsigned call answers these exactly, as the paper does.",
    );
    for [ax, ay, bx, by] in NEGATIVE {
        let (a, b) = (Hex::new(ax, ay), Hex::new(bx, by));
        if i64::from(a.unsigned_distance_to(b)) != exact(a, b) {
            stop("the crate's unsigned distance is not exact where it should be");
        }
        different(sheet, a, b, i64::from(a.distance_to(b)));
    }
}
