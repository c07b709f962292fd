//! Questions about the riding range and the totals check, on rides over grounds of many kinds.

use crate::generator::Generator;
use crate::rides::{BARRED, NO_WAY, Ride, Totals};
use crate::samples::{Centres, LIMIT};
use crate::sheet::{ACCEPTED, NOT_RIGHT, RIDING_RANGE, Sheet, TOTALS_CHECK};
use crate::stop;
use hexx::algorithms::field_of_movement;
use hexx::{EdgeDirection, Hex};

/// The largest budget that is asked: the crate's own work grows with it on every map.
pub const BUDGET: u32 = 180;

/// The words of a question about a ride, to the last effort.
fn words(ride: &Ride, kind: i64) -> Vec<i64> {
    let [x, y] = ride.centre.to_array().map(i64::from);
    let [at, beside] = ride.start.to_array().map(i64::from);
    let area = ride.efforts.len() as i64;
    let mut words = vec![
        kind,
        x,
        y,
        ride.radius.into(),
        at,
        beside,
        ride.budget.into(),
    ];
    words.extend([area, area]);
    words.extend(ride.efforts.iter().map(|&effort| i64::from(effort)));
    words
}

/// Writes the riding range with the totals that follow from the crate's answers.
fn range(ride: &Ride, sheet: &mut Sheet, totals: &[u32]) {
    let mut words = words(ride, RIDING_RANGE);
    words.push(ACCEPTED);
    words.extend(totals.iter().map(|&total| i64::from(total)));
    sheet.line(&words);
}

/// Writes the check of a table with the verdict of the rule.
fn check(ride: &Ride, sheet: &mut Sheet, totals: &[u32]) {
    let mut words = words(ride, TOTALS_CHECK);
    words.extend(totals.iter().map(|&total| i64::from(total)));
    words.extend(match ride.broken(totals) {
        None => [ACCEPTED, 0],
        Some(index) => [NOT_RIGHT, index as i64],
    });
    sheet.line(&words);
}

/// How many rides are asked.
const RIDES: usize = 2400;

/// One ride of this many has the largest budget and steep ground, so that its totals are large.
/// It is a multiple of the nine kinds of ground.
const STEEP: usize = 396;

/// The ground of a ride over the given tiles. What it is like goes by turns: flat, gentle,
/// rough or steep, with some tiles barred, with half of them barred, with a wall across the map,
/// with a wall that has a gap, a corridor from the start, and with tiles too dear for every budget.
pub fn ground(generator: &mut Generator, turn: usize, tiles: &[Hex], start: Hex) -> Vec<u16> {
    let wall = tiles[generator.between(0, tiles.len() as i32 - 1) as usize].y;
    let gap = tiles[generator.between(0, tiles.len() as i32 - 1) as usize];
    let corridor = corridor(generator, tiles, start);
    let mut effort = |tile: Hex| {
        let gentle = generator.between(0, 3) as u16;
        let chance = generator.between(0, 9);
        match turn % 9 {
            0 => 0,
            1 => gentle,
            2 if turn % STEEP == 2 => generator.between(0, 60) as u16,
            2 => generator.between(0, 12) as u16,
            3 if chance < 3 => BARRED,
            4 if chance < 5 => BARRED,
            5 if tile.y == wall => BARRED,
            6 if tile.y == wall && tile != gap => BARRED,
            7 if !corridor.contains(&tile) => BARRED,
            8 if chance < 2 => generator.between(BUDGET as i32, BARRED as i32 - 1) as u16,
            _ => gentle,
        }
    };
    tiles.iter().map(|&tile| effort(tile)).collect()
}

/// The tiles that a rider meets who sets out from the start and turns at random.
fn corridor(generator: &mut Generator, tiles: &[Hex], start: Hex) -> Vec<Hex> {
    let mut met = vec![start];
    let mut tile = start;
    for _ in 0..tiles.len() / 2 {
        let direction = EdgeDirection::ALL_DIRECTIONS[generator.between(0, 5) as usize];
        let next = tile + direction.into_hex();
        if tiles.contains(&next) {
            tile = next;
            met.push(tile);
        }
    }
    met
}

/// The budget of a ride. Few are large, since each smaller one is asked too.
fn budget(generator: &mut Generator, turn: usize) -> u32 {
    let most = match turn % STEEP {
        2 => return BUDGET,
        3..=11 => 60,
        12..=99 => 16,
        _ => 6,
    };
    generator.between(0, most) as u32
}

/// A ride by turns: most radii are small, the start is any tile, and each fifth start is barred.
fn ride(generator: &mut Generator, centre: Hex, turn: usize) -> Ride {
    let largest = if turn % 60 == 0 { 12 } else { 6 };
    let radius = generator.between(if largest == 12 { 7 } else { 0 }, largest) as u32;
    let mut ride = Ride {
        centre,
        radius,
        start: centre,
        budget: budget(generator, turn),
        efforts: vec![0; Hex::range_count(radius) as usize],
    };
    let tiles = ride.tiles();
    let at = generator.between(0, tiles.len() as i32 - 1) as usize;
    ride.start = tiles[at];
    ride.efforts = ground(generator, turn, &tiles, ride.start);
    if turn % 5 == 0 {
        ride.efforts[at] = BARRED;
    }
    ride
}

/// A copy of a right table that is not right. The damage goes by turns: one too high, one too
/// low, no way where there is one, a number where there is no way, the start not 0, and zeros
/// throughout. Where a turn would leave the table as it is, its start is made 1.
pub fn damaged(generator: &mut Generator, turn: usize, ride: &Ride, totals: &[u32]) -> Totals {
    let start = ride
        .tiles()
        .iter()
        .position(|&tile| tile == ride.start)
        .unwrap();
    let mut table = totals.to_vec();
    let some: Vec<usize> = (0..table.len())
        .filter(|&at| (table[at] == NO_WAY) == (turn % 6 == 3))
        .collect();
    if !some.is_empty() {
        let at = some[generator.between(0, some.len() as i32 - 1) as usize];
        match turn % 6 {
            0 => table[at] += 1,
            1 => table[at] = table[at].saturating_sub(1),
            2 => table[at] = NO_WAY,
            3 => table[at] = generator.between(0, BUDGET as i32) as u32,
            4 => table[start] = generator.between(1, 9) as u32,
            _ => table.fill(0),
        }
    }
    if table == totals {
        table[start] = 1;
    }
    table
}

pub fn ask(sheet: &mut Sheet) {
    let generator = &mut Generator::new(0x4A16_E000_0000_0009);
    let centres = &mut Centres::new(0x0CE4_7435_0000_000A);
    let asked: Vec<(Ride, Totals)> = (0..RIDES)
        .map(|turn| {
            let ride = ride(generator, centres.next(), turn);
            let totals = ride.totals();
            (ride, totals)
        })
        .collect();
    sheet.comment("30 riding range: 30 map x y budget efforts totals effort.. number total..");
    for (ride, totals) in &asked {
        range(ride, sheet, totals);
    }
    sheet.comment(
        "31 totals check: 31 map x y budget efforts totals effort.. total.. number index\n\
         The tables that follow from the crate's answers, which keep the neighbour rule.",
    );
    for (ride, totals) in &asked {
        if ride.broken(totals).is_some() {
            stop("a table of the crate's totals breaks the neighbour rule");
        }
        check(ride, sheet, totals);
    }
    sheet.comment(
        "The same tables with damage, and the lowest index that breaks the neighbour rule.",
    );
    for (turn, (ride, totals)) in asked.iter().enumerate() {
        let table = damaged(generator, turn, ride, totals);
        if ride.broken(&table).is_none() {
            stop("a damaged table keeps the neighbour rule");
        }
        check(ride, sheet, &table);
    }
}

/// Writes the crate's answer on a flat ride that the paper refuses.
fn refused(sheet: &mut Sheet, centre: Hex, radius: u32, start: Hex) {
    let ride = Ride {
        centre,
        radius,
        start,
        budget: 2,
        efforts: vec![0; Hex::range_count(radius) as usize],
    };
    range(&ride, sheet, &ride.totals());
}

/// Checks that the crate enters a tile whose cost is the largest number as if it cost nothing.
/// No line can ask this, since an effort has 16 bits.
fn check_wrapped_cost() {
    let beside = Hex::new(1, 0);
    let set = field_of_movement(Hex::ZERO, 1, |tile| (tile == beside).then_some(u32::MAX));
    if !set.contains(&beside) {
        stop("a cost listed as a difference does not wrap round");
    }
}

pub fn differences(sheet: &mut Sheet) {
    sheet.comment(
        "30 riding range, from a start that is not of the map: the crate rides into the map.\n\
         The paper refuses it with number 5 and leaves the table as it was.",
    );
    refused(sheet, Hex::ZERO, 0, Hex::new(1, 0));
    refused(sheet, Hex::ZERO, 1, Hex::new(2, 0));
    sheet.comment(
        "30 riding range, over a map whose centre is beyond the limit: the crate answers.\n\
         The paper refuses it with number 1 and leaves the table as it was.",
    );
    refused(sheet, Hex::new(LIMIT + 1, 0), 1, Hex::new(LIMIT + 1, 0));
    check_wrapped_cost();
    sheet.comment(
        "A cost of 4294967295, which no effort is and no line can hold: the crate adds 1 in 32 bits,\n\
         so that the step is free, and enters the tile with budget 1.",
    );
}
