//! The tiles that the questions are asked about.

use crate::generator::Generator;
use hexx::Hex;

/// The largest coordinate that the paper accepts, on either side of 0.
pub const LIMIT: i32 = 1_000_000;

/// Small, odd, even and outermost coordinates, of both signs.
pub const CHOSEN: [i32; 11] = [0, 1, -1, 2, -2, 3, -3, 999_999, -999_999, LIMIT, -LIMIT];

/// Coordinates at the limit and next to it, and the middle.
pub const OUTERMOST: [i32; 5] = [0, 999_999, -999_999, LIMIT, -LIMIT];

/// All tiles whose two coordinates are taken from the list.
pub fn pairs(of: &[i32]) -> Vec<Hex> {
    of.iter()
        .flat_map(|&x| of.iter().map(move |&y| Hex::new(x, y)))
        .collect()
}

/// One tile, each coordinate of which is at most `bound` from 0.
pub fn random(generator: &mut Generator, bound: i32) -> Hex {
    let x = generator.between(-bound, bound);
    let y = generator.between(-bound, bound);
    Hex::new(x, y)
}

/// Random tiles, half of them near the middle, where all cases lie close together.
pub fn randoms(generator: &mut Generator, count: usize) -> Vec<Hex> {
    (0..count)
        .map(|i| random(generator, if i % 2 == 0 { 50 } else { LIMIT }))
        .collect()
}

/// Says whether the paper accepts the tile in a conversion.
pub fn within_limit(tile: Hex) -> bool {
    let allowed = -LIMIT..=LIMIT;
    allowed.contains(&tile.x) && allowed.contains(&tile.y)
}

/// Gives out centres in turn: the middle, the corners of the limit, and random ones near
/// and far. The turn has seven places, so it meets every direction and sense.
pub struct Centres {
    generator: Generator,
    given: usize,
}

impl Centres {
    pub fn new(seed: u64) -> Self {
        Self {
            generator: Generator::new(seed),
            given: 0,
        }
    }

    /// How many whole turns were given out.
    pub fn turns(&self) -> usize {
        self.given / 7
    }

    pub fn next(&mut self) -> Hex {
        let place = self.given % 7;
        self.given += 1;
        match place {
            0 => Hex::ZERO,
            1 => Hex::new(LIMIT, LIMIT),
            2 => Hex::new(LIMIT, -LIMIT),
            3 => random(&mut self.generator, 50),
            4 => Hex::new(-LIMIT, LIMIT),
            5 => Hex::new(-LIMIT, -LIMIT),
            _ => random(&mut self.generator, LIMIT),
        }
    }
}
