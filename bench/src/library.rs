//! The library's calls, as a C program links them: a lent run is a pointer and a count of entries.

use crate::maps::Land;

extern "C" {
    fn kyrla_range(
        cx: i32,
        cy: i32,
        radius: u32,
        efforts: *const u16,
        effort_count: usize,
        sx: i32,
        sy: i32,
        budget: u32,
        totals: *mut u32,
        total_count: usize,
    ) -> i64;

    fn kyrla_check(
        cx: i32,
        cy: i32,
        radius: u32,
        efforts: *const u16,
        effort_count: usize,
        sx: i32,
        sy: i32,
        budget: u32,
        totals: *const u32,
        total_count: usize,
        broken: *mut u32,
        broken_count: usize,
    ) -> i64;

    fn kyrla_route(
        cx: i32,
        cy: i32,
        radius: u32,
        efforts: *const u16,
        effort_count: usize,
        sx: i32,
        sy: i32,
        ex: i32,
        ey: i32,
        ranks: *mut u64,
        rank_count: usize,
        run: *mut i32,
        run_count: usize,
    ) -> i64;
}

/// Where the library is told that a map's centre lies. The baseline works relative to the centre and need not know.
const CENTRE: (i32, i32) = (-7, 12);

/// A tile relative to the centre, as the library is told it.
pub fn told(tile: (i64, i64)) -> (i32, i32) {
    (CENTRE.0 + tile.0 as i32, CENTRE.1 + tile.1 as i32)
}

/// Fills the totals of the riding range, and answers what the library answers.
pub fn range(land: &Land, budget: u32, totals: &mut [u32]) -> i64 {
    let start = told(land.start);
    // SAFETY: each pointer and count are those of a slice that is lent for the call.
    unsafe {
        kyrla_range(
            CENTRE.0,
            CENTRE.1,
            land.radius as u32,
            land.efforts.as_ptr(),
            land.efforts.len(),
            start.0,
            start.1,
            budget,
            totals.as_mut_ptr(),
            totals.len(),
        )
    }
}

/// Checks a totals table, and answers what the library answers.
pub fn check(land: &Land, budget: u32, totals: &[u32], broken: &mut [u32]) -> i64 {
    let start = told(land.start);
    // SAFETY: as for `range`.
    unsafe {
        kyrla_check(
            CENTRE.0,
            CENTRE.1,
            land.radius as u32,
            land.efforts.as_ptr(),
            land.efforts.len(),
            start.0,
            start.1,
            budget,
            totals.as_ptr(),
            totals.len(),
            broken.as_mut_ptr(),
            broken.len(),
        )
    }
}

/// Fills the ranks to the start of the ride, lists the best route to it from a tile, and answers what the library answers.
pub fn route(land: &Land, from: (i64, i64), ranks: &mut [u64], run: &mut [i32]) -> i64 {
    let start = told(from);
    let end = told(land.start);
    // SAFETY: as for `range`.
    unsafe {
        kyrla_route(
            CENTRE.0,
            CENTRE.1,
            land.radius as u32,
            land.efforts.as_ptr(),
            land.efforts.len(),
            start.0,
            start.1,
            end.0,
            end.1,
            ranks.as_mut_ptr(),
            ranks.len(),
            run.as_mut_ptr(),
            run.len(),
        )
    }
}
