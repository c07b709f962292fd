//! Are the answers right that are to be timed? The library and the baseline must give the same tables and routes, and the
//! check must accept the tables and refuse damaged ones at the index that a plain scan finds. Anything else ends the program.

use crate::baseline::{self, NO_ROUTE, NO_WAY};
use crate::library;
use crate::maps::Land;

/// The answer of the check where a table is not right.
const NOT_RIGHT: i64 = -9;

/// What stands in a lent entry before a call, to see whether it was written.
const UNTOUCHED: u32 = 0xDEAD_BEEF;

/// Holds the answers on a map to those of the baseline, with no limit to the budget and with one that is reached.
pub fn compare(land: &Land) {
    let all = compare_within(land, u32::MAX);
    let farthest = all.iter().copied().filter(|total| *total != NO_WAY).max().unwrap_or(0);
    compare_within(land, farthest / 2);
    compare_routes(land);
}

/// The answer of a route that no open path makes, and of one for which the run is too short.
const NO_OPEN_PATH: i64 = -8;
const RUN_TOO_SHORT: i64 = -7;

/// From how many tiles of a map a route is compared, from the first index to the last.
const ROUTES: usize = 40;

/// Holds the ranks, and the routes from the farthest tile and from some others, to those of the baseline.
fn compare_routes(land: &Land) {
    let mut expected = vec![0; land.efforts.len()];
    baseline::ranks(land.radius, &land.efforts, land.start_index(), &mut expected);
    let last = expected.len() - 1;
    for start in (0..ROUTES).map(|step| step * last / (ROUTES - 1)).chain([land.farthest_index()]) {
        compare_route(land, &expected, start);
    }
}

/// Holds the route from one tile to the baseline's, with a run that is long enough and one that is an entry too short.
fn compare_route(land: &Land, expected: &[u64], start: usize) {
    let from = baseline::tile_of(start, land.radius);
    let tiles = match expected[start] {
        NO_ROUTE => Vec::new(),
        _ => baseline::route(land.radius, &land.efforts, expected, start),
    };
    let entries: Vec<i32> = tiles.iter().flat_map(|&tile| <[i32; 2]>::from(library::told(tile))).collect();
    let mut ranks = vec![0; expected.len()];
    let mut run = vec![0; entries.len()];
    let answer = library::route(land, from, &mut ranks, &mut run);
    let wanted = if tiles.is_empty() { NO_OPEN_PATH } else { tiles.len() as i64 };
    assert_eq!((answer, run), (wanted, entries), "{}: the route from {from:?}", land.name);
    assert!(ranks == expected, "{}: the ranks differ", land.name);
    if !tiles.is_empty() {
        let mut short = vec![0; 2 * tiles.len() - 1];
        assert_eq!(library::route(land, from, &mut ranks, &mut short), RUN_TOO_SHORT, "{}: a short run", land.name);
    }
}

/// The same within one budget. It answers the table.
fn compare_within(land: &Land, budget: u32) -> Vec<u32> {
    let mut expected = vec![UNTOUCHED; land.efforts.len()];
    let mut totals = expected.clone();
    baseline::range(land.radius, &land.efforts, land.start_index(), budget, &mut expected);
    assert_eq!(library::range(land, budget, &mut totals), 0, "{}: the range is refused", land.name);
    assert!(totals == expected, "{}: the tables differ", land.name);
    expect_verdict(land, budget, &totals);
    for step in 0..DAMAGED {
        let place = step * (totals.len() - 1) / (DAMAGED - 1);
        for change in [1, u32::MAX, NO_WAY - totals[place]] {
            let mut damaged = totals.clone();
            damaged[place] = damaged[place].wrapping_add(change);
            expect_verdict(land, budget, &damaged);
        }
    }
    totals
}

/// At how many places of a table it is damaged, from the first to the last.
const DAMAGED: usize = 25;

/// Expects of the check what a plain scan finds in the table, and that it writes the broken index alone.
fn expect_verdict(land: &Land, budget: u32, totals: &[u32]) {
    let found = baseline::lowest_broken(land.radius, &land.efforts, land.start_index(), budget, totals);
    let mut broken = [UNTOUCHED; 2];
    let answer = library::check(land, budget, totals, &mut broken);
    let expected = match found {
        Some(index) => (NOT_RIGHT, [index as u32, UNTOUCHED]),
        None => (0, [UNTOUCHED; 2]),
    };
    assert_eq!((answer, broken), expected, "{}: the verdict of the check", land.name);
    assert_eq!(library::check(land, budget, totals, &mut []), expected.0, "{}: with no entry to write to", land.name);
}
