//! A map of the crate of which every tile holds its own place. The crate keeps the
//! arithmetic of its maps to itself; what `get` and `iter` answer on such maps is what
//! that arithmetic says.

use crate::stop;
use hexx::storage::{HexModMap, HexStore, HexagonalMap};
use hexx::{Hex, HexBounds};
use std::collections::BTreeMap;

/// A row and a column in it.
pub type Place = [u32; 2];

pub struct Places {
    pub bounds: HexBounds,
    indexed: HexModMap<u32>,
    in_rows: HexagonalMap<Place>,
    /// The tiles that the crate's maps list, in the order of their indices and by
    /// their places.
    tiles: Vec<Hex>,
    tiles_in_rows: BTreeMap<Place, Hex>,
}

impl Places {
    pub fn new(centre: Hex, radius: u32) -> Self {
        let indexed = indexed(centre, radius);
        let in_rows = in_rows(centre, radius);
        let tiles = indexed.iter().map(|(tile, _)| tile).collect();
        let tiles_in_rows = in_rows.iter().map(|(tile, &at)| (at, tile)).collect();
        Self {
            bounds: HexBounds::new(centre, radius),
            indexed,
            in_rows,
            tiles,
            tiles_in_rows,
        }
    }

    /// The index of a tile, for which the crate's own conversion must say the same.
    pub fn index_of(&self, tile: Hex) -> Option<u32> {
        let index = *self.indexed.get(tile)?;
        let around = tile - self.bounds.center;
        if around.to_hexmod_coordinates(self.bounds.radius) != index {
            stop("the crate's map and its conversion to an index differ");
        }
        Some(index)
    }

    /// The tile of an index, for which the crate's own conversion must say the same.
    pub fn tile_of(&self, index: u32) -> Option<Hex> {
        let tile = *self.tiles.get(index as usize)?;
        let around = Hex::from_hexmod_coordinates(index, self.bounds.radius);
        if self.bounds.center + around != tile {
            stop("the crate's map and its conversion from an index differ");
        }
        Some(tile)
    }

    pub fn place_of(&self, tile: Hex) -> Option<Place> {
        self.in_rows.get(tile).copied()
    }

    pub fn tile_at(&self, place: Place) -> Option<Hex> {
        self.tiles_in_rows.get(&place).copied()
    }
}

/// A map that is filled in the order of its indices, each tile with its own.
fn indexed(centre: Hex, radius: u32) -> HexModMap<u32> {
    let mut indices = 0..;
    HexModMap::new(centre, radius, |_| indices.next().unwrap())
}

/// A map that is filled row by row, each tile with its place. A row begins where y changes.
fn in_rows(centre: Hex, radius: u32) -> HexagonalMap<Place> {
    let mut last: Option<(i32, Place)> = None;
    HexagonalMap::new(centre, radius, |tile| {
        let place = match last {
            None => [0, 0],
            Some((y, [row, column])) if y == tile.y => [row, column + 1],
            Some((_, [row, _])) => [row + 1, 0],
        };
        last = Some((tile.y, place));
        place
    })
}

/// Checks on the crate's own printout that its maps keep the tiles at the indices, and in
/// the rows and columns, that they were given.
pub fn check() {
    for radius in 0..=12 {
        let centre = Hex::new(5, -3);
        let area = Hex::range_count(radius);
        let kept: Vec<u32> = (0..area).collect();
        let row = |row: u32| -> Vec<Place> {
            let length = 2 * radius + 1 - row.abs_diff(radius);
            (0..length).map(|column| [row, column]).collect()
        };
        let rows: Vec<Vec<Place>> = (0..=2 * radius).map(row).collect();
        let indexed = format!("{:?}", indexed(centre, radius));
        let in_rows = format!("{:?}", in_rows(centre, radius));
        if !indexed.contains(&format!("inner: {kept:?}, "))
            || !in_rows.contains(&format!("inner: {rows:?}, "))
        {
            stop(&format!("a map of radius {radius} is not filled in order"));
        }
    }
}
