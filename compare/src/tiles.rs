//! Compares, on maps of every radius, the index of a tile and its row and column, there and back.

use crate::generator::Generator;
use crate::library::{self, kyrla_index};
use crate::pairs::compare as compare_pair;
use crate::places::{Place, Places};
use crate::samples::{Centres, random};
use crate::sheet::NOT_OF_MAP;
use crate::tally::Tally;
use hexx::Hex;

/// How many maps are asked about, by turns of all radii from 0 to 60, and how many questions of each kind every map is asked.
const MAPS: u32 = 610;
const RADII: u32 = 61;
const QUESTIONS: usize = 200;

/// One tile of so many is drawn from all that have 32-bit coordinates.
const FAR: usize = 16;

/// A map of the crate, with its centre and radius.
struct Map {
    centre: Hex,
    radius: u32,
    places: Places,
}

pub fn compare(tally: &mut Tally) {
    let generator = &mut Generator::new(0x03A9_5000_0000_0104);
    let centres = &mut Centres::new(0x0CE4_7435_0000_0105);
    for turn in 0..MAPS {
        let (centre, radius) = (centres.next(), turn % RADII);
        let map = Map { centre, radius, places: Places::new(centre, radius) };
        for question in 0..QUESTIONS {
            map.of_tile(tally, map.tile(generator, question));
            map.of_index(tally, generator.between(0, Hex::range_count(radius) as i32 - 1) as u32);
            map.of_place(tally, map.place(generator));
        }
    }
}

impl Map {
    /// The arguments of a call: the map, and what is asked about.
    fn arguments(&self, asked: [i64; 2]) -> [i64; 5] {
        [self.centre.x.into(), self.centre.y.into(), self.radius.into(), asked[0], asked[1]]
    }

    /// A tile of the map or a little outside, or now and then one that may be anywhere.
    fn tile(&self, generator: &mut Generator, question: usize) -> Hex {
        match question % FAR {
            0 => random(generator, i32::MAX),
            _ => self.centre + random(generator, self.radius as i32 + 1),
        }
    }

    /// A row and a column, up to one past the widest.
    fn place(&self, generator: &mut Generator) -> Place {
        let past = 2 * self.radius as i32 + 1;
        [generator.between(0, past) as u32, generator.between(0, past) as u32]
    }

    /// Compares the index and the row and column of a tile.
    fn of_tile(&self, tally: &mut Tally, tile: Hex) {
        let arguments = self.arguments([tile.x.into(), tile.y.into()]);
        let ours = kyrla_index(self.centre.x, self.centre.y, self.radius, tile.x, tile.y);
        let theirs = self.places.index_of(tile).map_or(-NOT_OF_MAP, i64::from);
        tally.compare_number("kyrla_index", &arguments, ours, theirs);
        let ours = |run: &mut [i32]| library::row_column(self.centre, self.radius, tile, run);
        let theirs = self.places.place_of(tile).map(|place| place.map(|part| part as i32));
        compare_pair(tally, "kyrla_row_column", &arguments, ours, theirs);
    }

    /// Compares the tile that has an index.
    fn of_index(&self, tally: &mut Tally, index: u32) {
        let arguments = self.arguments([index.into(), 0]);
        let ours = |run: &mut [i32]| library::tile(self.centre, self.radius, index, run);
        let theirs = self.places.tile_of(index).map(Hex::to_array);
        compare_pair(tally, "kyrla_tile", &arguments[..4], ours, theirs);
    }

    /// Compares the tile that has a row and a column.
    fn of_place(&self, tally: &mut Tally, place: Place) {
        let arguments = self.arguments(place.map(i64::from));
        let ours = |run: &mut [i32]| library::tile_at(self.centre, self.radius, place, run);
        let theirs = self.places.tile_at(place).map(Hex::to_array);
        compare_pair(tally, "kyrla_tile_at", &arguments, ours, theirs);
    }
}
