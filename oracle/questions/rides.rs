//! A ride: a map with its efforts, a start and a budget; the totals that the crate's answers
//! make, and the neighbour rule. The crate answers a set of tiles for a budget and no totals, so
//! a tile's total is the smallest budget whose set has it.

use crate::stop;
use hexx::algorithms::field_of_movement;
use hexx::storage::{HexModMap, HexStore};
use hexx::{EdgeDirection, Hex};

/// The effort that bars a tile, and the total that stands for no way.
pub const BARRED: u16 = u16::MAX;
pub const NO_WAY: u32 = u32::MAX;

/// A map with its efforts by index, a start and a budget.
pub struct Ride {
    pub centre: Hex,
    pub radius: u32,
    pub start: Hex,
    pub budget: u32,
    pub efforts: Vec<u16>,
}

/// A table by index.
pub type Totals = Vec<u32>;

impl Ride {
    /// The crate's map of the efforts, which it keeps in the order of its indices.
    fn by_tile<T: Copy>(&self, table: &[T]) -> HexModMap<T> {
        let mut entries = table.iter().copied();
        HexModMap::new(self.centre, self.radius, |_| entries.next().unwrap())
    }

    /// The tiles of the map in the order of their indices.
    pub fn tiles(&self) -> Vec<Hex> {
        let indices: Vec<u32> = (0..Hex::range_count(self.radius)).collect();
        self.by_tile(&indices)
            .iter()
            .map(|(tile, _)| tile)
            .collect()
    }

    /// The totals that follow from the crate's answers for every budget from 0 on. Once every
    /// tile that may be reached has its total, only the budget itself is still asked.
    pub fn totals(&self) -> Totals {
        let tiles = self.tiles();
        let efforts = self.by_tile(&self.efforts);
        let cost = |tile: Hex| {
            efforts
                .get(tile)
                .filter(|&&effort| effort != BARRED)
                .copied()
        };
        let may_be_reached = |tile: Hex| tile == self.start || cost(tile).is_some();
        let mut totals = vec![NO_WAY; tiles.len()];
        for budget in 0..=self.budget {
            let mut entries = tiles.iter().zip(&totals);
            let done = entries.all(|(&tile, &total)| total != NO_WAY || !may_be_reached(tile));
            if done && budget < self.budget {
                continue;
            }
            let set = field_of_movement(self.start, budget, |tile| cost(tile).map(u32::from));
            if !set.iter().all(|&tile| may_be_reached(tile)) {
                stop("the crate's range has a barred tile, or one that is not of the map");
            }
            for (tile, total) in tiles.iter().zip(&mut totals) {
                match set.contains(tile) {
                    true => *total = budget.min(*total),
                    false if *total == NO_WAY => (),
                    false => stop("the crate's range of a larger budget lacks a tile"),
                }
            }
        }
        totals
    }

    /// The lowest index at which a table breaks the neighbour rule, read from the paper: nothing
    /// of the crate's range and nothing of the library is used.
    pub fn broken(&self, totals: &[u32]) -> Option<usize> {
        let by_tile = self.by_tile(totals);
        self.tiles()
            .into_iter()
            .zip(totals)
            .enumerate()
            .find_map(|(index, (tile, &total))| {
                let smallest = EdgeDirection::ALL_DIRECTIONS
                    .iter()
                    .filter_map(|&direction| by_tile.get(tile + direction.into_hex()).copied())
                    .filter(|&entry| entry != NO_WAY)
                    .min();
                let sum =
                    smallest.map(|entry| u64::from(entry) + u64::from(self.efforts[index]) + 1);
                let rule = match sum {
                    _ if tile == self.start => 0,
                    _ if self.efforts[index] == BARRED => u64::from(NO_WAY),
                    Some(sum) if sum <= u64::from(self.budget) => sum,
                    _ => u64::from(NO_WAY),
                };
                (u64::from(total) != rule).then_some(index)
            })
    }
}
