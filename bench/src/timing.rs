//! Times of the library and of the baseline on one map, taken in turn, so that what else the machine does meets all alike.

use crate::baseline;
use crate::library;
use crate::maps::Land;
use std::hint::black_box;
use std::time::Instant;

/// The least time that each call took, in microseconds: the one that was disturbed least.
pub struct Times {
    pub range: f64,
    pub check: f64,
    pub baseline: f64,
    pub ranks: f64,
    pub route: f64,
    pub ranks_baseline: f64,
}

impl Times {
    /// Before the first round.
    pub fn none() -> Times {
        let none = f64::MAX;
        Times { range: none, check: none, baseline: none, ranks: none, route: none, ranks_baseline: none }
    }

    /// Takes the times of some more rounds.
    pub fn take(&mut self, land: &Land, rounds: usize) {
        self.take_ranges(land, rounds);
        self.take_routes(land, rounds);
    }

    /// Takes the times of the range and the check, without a limit to the budget.
    fn take_ranges(&mut self, land: &Land, rounds: usize) {
        let mut totals = vec![0; land.efforts.len()];
        let mut others = totals.clone();
        let start = land.start_index();
        for _ in 0..rounds {
            self.range = self.range.min(took(|| {
                black_box(library::range(black_box(land), u32::MAX, &mut totals));
            }));
            self.check = self.check.min(took(|| {
                black_box(library::check(black_box(land), u32::MAX, &totals, &mut []));
            }));
            self.baseline = self.baseline.min(took(|| {
                baseline::range(land.radius, black_box(&land.efforts), start, u32::MAX, black_box(&mut others));
            }));
        }
    }

    /// Takes the times of the ranks alone, which the library is asked for with an empty run, and of the route from the
    /// farthest tile.
    fn take_routes(&mut self, land: &Land, rounds: usize) {
        let mut ranks = vec![0; land.efforts.len()];
        let mut others = ranks.clone();
        let mut run = vec![0; 2 * land.efforts.len()];
        let end = land.start_index();
        let from = baseline::tile_of(land.farthest_index(), land.radius);
        for _ in 0..rounds {
            self.ranks = self.ranks.min(took(|| {
                black_box(library::route(black_box(land), from, &mut ranks, &mut []));
            }));
            self.route = self.route.min(took(|| {
                black_box(library::route(black_box(land), from, &mut ranks, &mut run));
            }));
            self.ranks_baseline = self.ranks_baseline.min(took(|| {
                baseline::ranks(land.radius, black_box(&land.efforts), end, black_box(&mut others));
            }));
        }
    }
}

/// How long one call takes, in microseconds.
fn took(call: impl FnOnce()) -> f64 {
    let began = Instant::now();
    call();
    began.elapsed().as_nanos() as f64 / 1000.0
}
