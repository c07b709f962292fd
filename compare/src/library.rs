//! The library's calls as a C program links them, by `include/kyrlamesh.h`, each with a form that is lent slices.

use crate::rides::Ride;
use crate::routes::Journey;
use hexx::Hex;

unsafe extern "C" {
    pub safe fn kyrla_distance(ax: i32, ay: i32, bx: i32, by: i32) -> i64;
    pub safe fn kyrla_index(cx: i32, cy: i32, radius: u32, x: i32, y: i32) -> i64;
    pub safe fn kyrla_ring_count(range: u32) -> u64;
    pub safe fn kyrla_wedge_count(range: u32) -> u64;

    fn kyrla_ring(cx: i32, cy: i32, range: u32, direction: u32, sense: u32, run: *mut i32, run_len: usize) -> i64;
    fn kyrla_ring_edge(cx: i32, cy: i32, range: u32, vertex: u32, sense: u32, run: *mut i32, run_len: usize) -> i64;
    fn kyrla_wedge(cx: i32, cy: i32, first: u32, last: u32, vertex: u32, sense: u32, run: *mut i32, run_len: usize) -> i64;
    fn kyrla_corner_wedge(cx: i32, cy: i32, first: u32, last: u32, direction: u32, run: *mut i32, run_len: usize) -> i64;
    fn kyrla_spiral(cx: i32, cy: i32, first: u32, last: u32, direction: u32, sense: u32, run: *mut i32, run_len: usize) -> i64;

    fn kyrla_tile(cx: i32, cy: i32, radius: u32, index: u32, run: *mut i32, run_len: usize) -> i64;
    fn kyrla_row_column(cx: i32, cy: i32, radius: u32, x: i32, y: i32, run: *mut i32, run_len: usize) -> i64;
    fn kyrla_tile_at(cx: i32, cy: i32, radius: u32, row: u32, column: u32, run: *mut i32, run_len: usize) -> i64;
    fn kyrla_to_offset(x: i32, y: i32, mode: u32, orientation: u32, run: *mut i32, run_len: usize) -> i64;
    fn kyrla_from_offset(column: i32, row: i32, mode: u32, orientation: u32, run: *mut i32, run_len: usize) -> i64;
    fn kyrla_to_doubled(x: i32, y: i32, mode: u32, run: *mut i32, run_len: usize) -> i64;
    fn kyrla_from_doubled(column: i32, row: i32, mode: u32, run: *mut i32, run_len: usize) -> i64;

    fn kyrla_range(
        cx: i32,
        cy: i32,
        radius: u32,
        efforts: *const u16,
        efforts_len: usize,
        sx: i32,
        sy: i32,
        budget: u32,
        totals: *mut u32,
        totals_len: usize,
    ) -> i64;
    fn kyrla_check(
        cx: i32,
        cy: i32,
        radius: u32,
        efforts: *const u16,
        efforts_len: usize,
        sx: i32,
        sy: i32,
        budget: u32,
        totals: *const u32,
        totals_len: usize,
        broken: *mut u32,
        broken_len: usize,
    ) -> i64;
    fn kyrla_route(
        cx: i32,
        cy: i32,
        radius: u32,
        efforts: *const u16,
        efforts_len: usize,
        sx: i32,
        sy: i32,
        ex: i32,
        ey: i32,
        ranks: *mut u64,
        ranks_len: usize,
        run: *mut i32,
        run_len: usize,
    ) -> i64;
}

// SAFETY, of every block below: each pointer and count are those of one slice, which is lent for the call and shared with no other.

pub fn ring(c: Hex, range: u32, direction: u32, sense: u32, run: &mut [i32]) -> i64 {
    unsafe { kyrla_ring(c.x, c.y, range, direction, sense, run.as_mut_ptr(), run.len()) }
}

pub fn ring_edge(c: Hex, range: u32, vertex: u32, sense: u32, run: &mut [i32]) -> i64 {
    unsafe { kyrla_ring_edge(c.x, c.y, range, vertex, sense, run.as_mut_ptr(), run.len()) }
}

pub fn wedge(c: Hex, [first, last]: [u32; 2], vertex: u32, sense: u32, run: &mut [i32]) -> i64 {
    unsafe { kyrla_wedge(c.x, c.y, first, last, vertex, sense, run.as_mut_ptr(), run.len()) }
}

pub fn corner_wedge(c: Hex, [first, last]: [u32; 2], direction: u32, run: &mut [i32]) -> i64 {
    unsafe { kyrla_corner_wedge(c.x, c.y, first, last, direction, run.as_mut_ptr(), run.len()) }
}

pub fn spiral(c: Hex, [first, last]: [u32; 2], direction: u32, sense: u32, run: &mut [i32]) -> i64 {
    unsafe { kyrla_spiral(c.x, c.y, first, last, direction, sense, run.as_mut_ptr(), run.len()) }
}

pub fn tile(c: Hex, radius: u32, index: u32, run: &mut [i32]) -> i64 {
    unsafe { kyrla_tile(c.x, c.y, radius, index, run.as_mut_ptr(), run.len()) }
}

pub fn row_column(c: Hex, radius: u32, tile: Hex, run: &mut [i32]) -> i64 {
    unsafe { kyrla_row_column(c.x, c.y, radius, tile.x, tile.y, run.as_mut_ptr(), run.len()) }
}

pub fn tile_at(c: Hex, radius: u32, [row, column]: [u32; 2], run: &mut [i32]) -> i64 {
    unsafe { kyrla_tile_at(c.x, c.y, radius, row, column, run.as_mut_ptr(), run.len()) }
}

pub fn to_offset(tile: Hex, [mode, orientation]: [u32; 2], run: &mut [i32]) -> i64 {
    unsafe { kyrla_to_offset(tile.x, tile.y, mode, orientation, run.as_mut_ptr(), run.len()) }
}

pub fn from_offset([column, row]: [i32; 2], [mode, orientation]: [u32; 2], run: &mut [i32]) -> i64 {
    unsafe { kyrla_from_offset(column, row, mode, orientation, run.as_mut_ptr(), run.len()) }
}

pub fn to_doubled(tile: Hex, mode: u32, run: &mut [i32]) -> i64 {
    unsafe { kyrla_to_doubled(tile.x, tile.y, mode, run.as_mut_ptr(), run.len()) }
}

pub fn from_doubled([column, row]: [i32; 2], mode: u32, run: &mut [i32]) -> i64 {
    unsafe { kyrla_from_doubled(column, row, mode, run.as_mut_ptr(), run.len()) }
}

pub fn range(ride: &Ride, totals: &mut [u32]) -> i64 {
    let (c, start, efforts) = (ride.centre, ride.start, &ride.efforts);
    let (table, length) = (efforts.as_ptr(), efforts.len());
    unsafe { kyrla_range(c.x, c.y, ride.radius, table, length, start.x, start.y, ride.budget, totals.as_mut_ptr(), totals.len()) }
}

pub fn check(ride: &Ride, totals: &[u32], broken: &mut [u32]) -> i64 {
    let (c, start, efforts) = (ride.centre, ride.start, &ride.efforts);
    let (table, length) = (efforts.as_ptr(), efforts.len());
    let (told, noted) = (totals.as_ptr(), broken.as_mut_ptr());
    unsafe { kyrla_check(c.x, c.y, ride.radius, table, length, start.x, start.y, ride.budget, told, totals.len(), noted, broken.len()) }
}

pub fn route(journey: &Journey, ranks: &mut [u64], run: &mut [i32]) -> i64 {
    let (c, start, end, efforts) = (journey.centre, journey.start, journey.end, &journey.efforts);
    let (table, length) = (efforts.as_ptr(), efforts.len());
    let (ranked, listed) = (ranks.as_mut_ptr(), run.as_mut_ptr());
    unsafe { kyrla_route(c.x, c.y, journey.radius, table, length, start.x, start.y, end.x, end.y, ranked, ranks.len(), listed, run.len()) }
}
