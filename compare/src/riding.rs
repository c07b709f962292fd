//! Compares riding ranges, and holds the totals check to the tables that the crate's answers make.

use crate::generator::Generator;
use crate::library;
use crate::ranges::{BUDGET, damaged, ground};
use crate::rides::{BARRED, Ride};
use crate::samples::Centres;
use crate::sheet::NOT_RIGHT;
use crate::tally::Tally;
use hexx::Hex;

/// How many rides are asked, over maps of the radii from 0 to the largest here.
const RIDES: usize = 3_300;
const LARGEST: i32 = 12;

/// The oracle's ground is steep at this turn. It is so seldom afterwards, and here at one ride of eighteen, so that totals are large.
const STEEP: usize = 2;

/// What an entry of a table holds before a call. It is above every budget that is asked, and not the number for no way.
const UNTOUCHED: u32 = 777_777_777;

pub fn compare(tally: &mut Tally) {
    let generator = &mut Generator::new(0x4A16_E000_0000_0108);
    let centres = &mut Centres::new(0x0CE4_7435_0000_0109);
    for turn in 0..RIDES {
        let ride = ride(generator, centres.next(), turn);
        let totals = ride.totals();
        let mut ours = vec![UNTOUCHED; totals.len()];
        let answer = library::range(&ride, &mut ours);
        tally.compare("kyrla_range", &arguments(&ride), (answer, &ours), (0, &totals));
        check(tally, &ride, &totals, None);
        let table = damaged(generator, turn, &ride, &totals);
        // Damage makes no right table, unless the crate's totals were not right.
        if let Some(broken) = ride.broken(&table) {
            check(tally, &ride, &table, Some(broken));
        }
    }
}

/// A ride from any tile of a map, which is barred in one of five rides whatever the ground. The kinds of ground are the oracle's, which
/// go by turns of nine, so the budgets go by turns of ten: most are small, since the crate is asked for each smaller one too.
fn ride(generator: &mut Generator, centre: Hex, turn: usize) -> Ride {
    let radius = generator.between(0, LARGEST) as u32;
    let budget = match turn % 10 {
        0 | 1 => generator.between(0, BUDGET as i32),
        2..=5 => generator.between(0, 60),
        _ => generator.between(0, 16),
    } as u32;
    let efforts = vec![0; Hex::range_count(radius) as usize];
    let mut ride = Ride { centre, radius, start: centre, budget, efforts };
    let tiles = ride.tiles();
    let at = generator.between(0, tiles.len() as i32 - 1) as usize;
    ride.start = tiles[at];
    let kind = if turn % 18 == STEEP { STEEP } else { turn };
    ride.efforts = ground(generator, kind, &tiles, ride.start);
    if generator.between(0, 4) == 0 {
        ride.efforts[at] = BARRED;
    }
    ride
}

/// Compares the verdict on a table with what it should be: right, or broken at an index, which is noted. The arguments end with the table.
fn check(tally: &mut Tally, ride: &Ride, totals: &[u32], broken: Option<usize>) {
    let mut notes = [UNTOUCHED; 2];
    let answer = library::check(ride, totals, &mut notes);
    let (number, noted) = match broken {
        None => (0, UNTOUCHED),
        Some(index) => (-NOT_RIGHT, index as u32),
    };
    let mut arguments = arguments(ride);
    arguments.extend(totals.iter().map(|&total| i64::from(total)));
    tally.compare("kyrla_check", &arguments, (answer, &notes), (number, &[noted, UNTOUCHED]));
}

/// The arguments of a ride that are numbers, and then its efforts.
fn arguments(ride: &Ride) -> Vec<i64> {
    let [cx, cy] = ride.centre.to_array().map(i64::from);
    let [sx, sy] = ride.start.to_array().map(i64::from);
    let mut arguments = vec![cx, cy, ride.radius.into(), sx, sy, ride.budget.into()];
    arguments.extend(ride.efforts.iter().map(|&effort| i64::from(effort)));
    arguments
}
