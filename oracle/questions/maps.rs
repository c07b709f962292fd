//! Questions about maps: whether a tile is of one, and its index, and its row and column,
//! there and back.

use crate::generator::Generator;
use crate::places::{Place, Places};
use crate::samples::{Centres, LIMIT};
use crate::sheet::{
    ACCEPTED, FROM_INDEX, FROM_ROW_COLUMN, IS_OF_MAP, NOT_OF_MAP, Sheet, TO_INDEX, TO_ROW_COLUMN,
};
use crate::stop;
use hexx::{Hex, HexBounds};

/// The largest radius that the paper accepts.
const RADIUS: u32 = 60;

/// Every tile of the maps to this radius round (0, 0) is asked about.
const WHOLE: u32 = 12;

/// Tiles so far out that their differences from most centres pass 32 bits.
const FAR: [[i32; 2]; 8] = [
    [i32::MAX, 0],
    [i32::MIN, 0],
    [0, i32::MAX],
    [0, i32::MIN],
    [i32::MAX, i32::MAX],
    [i32::MIN, i32::MIN],
    [i32::MAX, i32::MIN],
    [i32::MIN, i32::MAX],
];

/// A map and what is asked of it.
struct Questions {
    places: Places,
    tiles: Vec<Hex>,
    indices: Vec<u32>,
    at: Vec<Place>,
}

impl Questions {
    /// Asks about every tile of a map and those round it, and about every index and place.
    fn whole(centre: Hex, radius: u32) -> Self {
        let places = Places::new(centre, radius);
        let mut tiles: Vec<Hex> = places.bounds.all_coords().collect();
        tiles.extend(centre.ring(radius + 1));
        let past = 2 * radius + 1;
        Self {
            places,
            tiles,
            indices: (0..Hex::range_count(radius)).collect(),
            at: (0..=past)
                .flat_map(|row| (0..=past).map(move |column| [row, column]))
                .collect(),
        }
    }

    /// Asks about the corners of a map and those round it, about tiles far away, and about
    /// some tiles, indices and places in it.
    fn some(generator: &mut Generator, centre: Hex, radius: u32) -> Self {
        let places = Places::new(centre, radius);
        let area = Hex::range_count(radius);
        let mut indices = vec![0, 1, radius, radius + 1, area / 2, area - 1];
        indices.extend((0..8).map(|_| generator.between(0, area as i32 - 1) as u32));
        indices.retain(|&index| index < area);
        let mut tiles = vec![centre];
        tiles.extend(places.bounds.corners());
        tiles.extend(indices.iter().filter_map(|&index| places.tile_of(index)));
        let mut at: Vec<Place> = tiles.iter().filter_map(|&t| places.place_of(t)).collect();
        let last = 2 * radius;
        at.extend([[0, radius + 1], [radius, last + 1], [last, radius + 1]]);
        at.extend([[last + 1, 0], [u32::MAX, 0], [0, u32::MAX]]);
        tiles.extend(HexBounds::new(centre, radius + 1).corners());
        tiles.extend(FAR.map(Hex::from_array));
        Self {
            places,
            tiles,
            indices,
            at,
        }
    }

    fn line(&self, sheet: &mut Sheet, kind: i64, asked: &[i64], answer: &[i64]) {
        let [x, y] = self.places.bounds.center.to_array().map(i64::from);
        let mut words = vec![kind, x, y, i64::from(self.places.bounds.radius)];
        words.extend(asked);
        words.extend(answer);
        sheet.line(&words);
    }

    /// Asks the crate for what each tile has, and for the tile of each index and place.
    fn ask(&self, sheet: &mut Sheet, kind: i64) {
        let places = &self.places;
        match kind {
            IS_OF_MAP => self.each_tile(sheet, kind, |tile| {
                vec![i64::from(places.bounds.is_in_bounds(tile))]
            }),
            TO_INDEX => self.each_tile(sheet, kind, |tile| {
                numbers(places.index_of(tile).map(|index| [index.into()]))
            }),
            TO_ROW_COLUMN => self.each_tile(sheet, kind, |tile| {
                numbers(places.place_of(tile).map(|at| at.map(i64::from)))
            }),
            FROM_INDEX => {
                for &index in &self.indices {
                    let answer = tile_numbers(places.tile_of(index));
                    self.line(sheet, kind, &[index.into()], &answer);
                }
            }
            FROM_ROW_COLUMN => {
                for &place in &self.at {
                    let answer = tile_numbers(places.tile_at(place));
                    self.line(sheet, kind, &place.map(i64::from), &answer);
                }
            }
            kind => stop(&format!("kind {kind} is no question about a map")),
        }
    }

    fn each_tile(&self, sheet: &mut Sheet, kind: i64, answer: impl Fn(Hex) -> Vec<i64>) {
        for &tile in &self.tiles {
            self.line(sheet, kind, &tile.to_array().map(i64::from), &answer(tile));
        }
    }
}

/// What the crate found as our numbers, and refusal 5 with zeros where it has nothing.
fn numbers<const N: usize>(found: Option<[i64; N]>) -> Vec<i64> {
    let number = if found.is_some() {
        ACCEPTED
    } else {
        NOT_OF_MAP
    };
    let mut words = vec![number];
    words.extend(found.unwrap_or([0; N]));
    words
}

fn tile_numbers(found: Option<Hex>) -> Vec<i64> {
    numbers(found.map(|tile| tile.to_array().map(i64::from)))
}

pub fn ask(sheet: &mut Sheet) {
    let generator = &mut Generator::new(0x03A9_5000_0000_0007);
    let centres = &mut Centres::new(0x0CE4_7435_0000_0008);
    let mut asked: Vec<Questions> = (0..=WHOLE)
        .map(|radius| Questions::whole(Hex::ZERO, radius))
        .collect();
    for radius in 0..=RADIUS {
        asked.push(Questions::some(generator, centres.next(), radius));
    }
    for (kind, form) in [
        (IS_OF_MAP, "21 is of map: 21 map x y of"),
        (TO_INDEX, "22 to index: 22 map x y number index"),
        (FROM_INDEX, "23 from index: 23 map index number x y"),
        (
            TO_ROW_COLUMN,
            "24 to row and column: 24 map x y number row column",
        ),
        (
            FROM_ROW_COLUMN,
            "25 from row and column: 25 map row column number x y",
        ),
    ] {
        sheet.comment(form);
        asked.iter().for_each(|of_map| of_map.ask(sheet, kind));
    }
}

/// Writes the crate's answers on one map that the paper refuses.
fn refused(sheet: &mut Sheet, centre: Hex, radius: u32) {
    let questions = Questions {
        places: Places::new(centre, radius),
        tiles: vec![centre],
        indices: vec![0],
        at: vec![[radius, radius]],
    };
    for kind in [TO_INDEX, FROM_INDEX, TO_ROW_COLUMN, FROM_ROW_COLUMN] {
        questions.ask(sheet, kind);
    }
}

/// Writes the crate's own conversion from the index that is the area, which gives the centre.
fn index_of_the_area(sheet: &mut Sheet, radius: u32) {
    let area = Hex::range_count(radius);
    let tile = Hex::from_hexmod_coordinates(area, radius);
    if tile != Hex::ZERO {
        stop("the index that is the area does not give the centre");
    }
    let [x, y] = tile.to_array().map(i64::from);
    let map = [FROM_INDEX, 0, 0, radius.into()];
    sheet.line(&[&map[..], &[area.into(), ACCEPTED, x, y]].concat());
}

/// Tiles that are not of the map of the radius beside them, the nearest first.
const OUTSIDE: [(u32, [i32; 2]); 4] = [(0, [0, 1]), (0, [1, 0]), (1, [1, 1]), (60, [61, 0])];

pub fn differences(sheet: &mut Sheet) {
    sheet.comment(
        "23 from index, of the index that is the area, by the crate's conversion: it gives the centre.\n\
         The paper refuses it with number 5 and answers zeros, as the crate's map has no such index.",
    );
    (0..=RADIUS).for_each(|radius| index_of_the_area(sheet, radius));
    sheet.comment(
        "22 to index, of a tile that is not of the map, by the crate's conversion: it gives an index.\n\
         The paper refuses it with number 5 and answers zeros, as the crate's map has no such tile.",
    );
    for (radius, [x, y]) in OUTSIDE {
        let index = Hex::new(x, y).to_hexmod_coordinates(radius);
        let [x, y] = [x, y].map(i64::from);
        sheet.line(&[TO_INDEX, 0, 0, radius.into(), x, y, ACCEPTED, index.into()]);
    }
    sheet.comment(
        "22 to 25, of a centre beyond the limit, here (1000001, 0): the crate answers.\n\
         The paper refuses it with number 1 and answers zeros.",
    );
    refused(sheet, Hex::new(LIMIT + 1, 0), 1);
    sheet.comment(
        "22 to 25, of a radius above 60, here 61: the crate answers.\n\
         The paper refuses it with number 2 and answers zeros.",
    );
    refused(sheet, Hex::ZERO, RADIUS + 1);
    wrapped(sheet);
}

/// Writes that the crate takes a tile at one end of 32 bits for a neighbour of one at the other.
fn wrapped(sheet: &mut Sheet) {
    sheet.comment(
        "21 is of map, where a difference passes 32 bits: the crate wraps round and says yes.\n\
         The paper takes differences in whole numbers and says no.",
    );
    let [centre, tile] = [[i32::MAX, 0], [i32::MIN, 0]].map(Hex::from_array);
    if !HexBounds::new(centre, 1).is_in_bounds(tile) {
        stop("a tile listed as a difference is not of the map");
    }
    let [x, y, at, beside] = [centre.x, centre.y, tile.x, tile.y].map(i64::from);
    sheet.line(&[IS_OF_MAP, x, y, 1, at, beside, 1]);
}
