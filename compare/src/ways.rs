//! Compares routes and ranks, in two ways.
//!
//! The crate is asked for the route from every tile to the end, with a price of each effort that is the effort times 65,536, and 1. No
//! price is 0, so that its search finds the least sum, which is the rank: the least cost, and the fewest steps at that cost. The ranks
//! and the rule for routes of one rank, the smallest direction first, make the tiles that are wanted.
//!
//! The crate is also asked with the efforts as they are. What its route costs must then be our cost where no effort is 0; elsewhere it
//! may be dearer, since the crate takes each step to cost at least 1, and must not be cheaper.

use crate::generator::Generator;
use crate::library;
use crate::pairs::UNTOUCHED;
use crate::routes::{Journey, Rank, ground};
use crate::samples::Centres;
use crate::sheet::NO_OPEN_PATH;
use crate::tally::{Tally, difference};
use hexx::Hex;

/// How many journeys are asked, and the largest radii of their maps, by turns. The crate is asked once for each tile of a map, so that
/// the large maps take most of the time.
const JOURNEYS: usize = 6_000;
const LARGEST: [i32; 3] = [6, 6, 12];

/// What an entry of the ranks holds before a call, the rank of a tile from which no route leads, and by what a rank's cost is multiplied.
const UNRANKED: u64 = 7_777_777_777_777_777_777;
const NO_RANK: u64 = u64::MAX;
const FACTOR: u32 = 65_536;

pub fn compare(tally: &mut Tally) {
    let generator = &mut Generator::new(0x0A57_A400_0000_010A);
    let centres = &mut Centres::new(0x0CE4_7435_0000_010B);
    for turn in 0..JOURNEYS {
        let (mut journey, tiles) = journey(generator, centres.next(), turn);
        // A route has each tile of the map at most once, and the run has room for some entries more.
        let mut run = vec![UNTOUCHED; 2 * tiles.len() + generator.between(0, 5) as usize];
        let mut ranks = vec![UNRANKED; tiles.len()];
        let answer = library::route(&journey, &mut ranks, &mut run);
        let arguments = arguments(&journey, run.len());
        let cost = plain_cost(&journey);
        let (number, filled, ranked) = wanted(&mut journey, &tiles, run.len());
        let wrong = difference((answer, &run), (number, &filled))
            .or_else(|| difference((answer, &ranks), (number, &ranked)).map(|wrong| format!("of the ranks, {wrong}")))
            .or_else(|| wrong_cost(&journey, rank_of(&journey, &tiles, &ranks), cost));
        tally.judge("kyrla_route", &arguments, wrong);
    }
}

/// A journey between any two tiles of a map, and the map's tiles by index. The kinds of ground are the oracle's; those of odd turns have
/// efforts of 0.
fn journey(generator: &mut Generator, centre: Hex, turn: usize) -> (Journey, Vec<Hex>) {
    let radius = generator.between(0, LARGEST[turn % LARGEST.len()]) as u32;
    let area = Hex::range_count(radius);
    let tiles: Vec<Hex> = (0..area).map(|index| centre + Hex::from_hexmod_coordinates(index, radius)).collect();
    let mut any = || tiles[generator.between(0, area as i32 - 1) as usize];
    let (start, end) = (any(), any());
    let efforts = ground(generator, turn, tiles.len());
    (Journey { centre, radius, start, end, efforts }, tiles)
}

/// The number, the run and the ranks that should be answered. The start of the journey is the same afterwards.
fn wanted(journey: &mut Journey, tiles: &[Hex], entries: usize) -> (i64, Vec<i32>, Vec<u64>) {
    let start = journey.start;
    let rank = |&tile: &Hex| {
        journey.start = tile;
        rank_of_crate(journey)
    };
    let ranks: Vec<Rank> = tiles.iter().map(rank).collect();
    journey.start = start;
    let best = journey.best(&ranks);
    let number = best.as_ref().map_or(-NO_OPEN_PATH, |route| route.len() as i64);
    let mut run: Vec<i32> = best.unwrap_or_default().iter().flat_map(|tile| tile.to_array()).collect();
    run.resize(entries, UNTOUCHED);
    let packed = |&rank: &Rank| rank.map_or(NO_RANK, |(cost, steps)| cost * u64::from(FACTOR) + steps);
    (number, run, ranks.iter().map(packed).collect())
}

/// The rank of the journey's start by the crate's search. No sum here comes near the ends of 32 bits, in which the crate adds.
fn rank_of_crate(journey: &Journey) -> Rank {
    let route = journey.of_crate_at(|effort| effort * FACTOR + 1)?;
    Some((journey.cost(&route), route.len() as u64 - 1))
}

/// What the crate's route costs where the efforts are the prices, if it has one.
fn plain_cost(journey: &Journey) -> Option<u64> {
    journey.of_crate_at(|effort| effort).map(|route| journey.cost(&route))
}

/// The rank that the library gave to the start.
fn rank_of(journey: &Journey, tiles: &[Hex], ranks: &[u64]) -> u64 {
    tiles.iter().zip(ranks).find(|&(&tile, _)| tile == journey.start).map_or(UNRANKED, |(_, &rank)| rank)
}

/// What is wrong with the cost that the start's rank tells, if anything is, beside the crate's cost for the efforts as they are.
fn wrong_cost(journey: &Journey, rank: u64, theirs: Option<u64>) -> Option<String> {
    let ours = (rank != NO_RANK).then_some(rank / u64::from(FACTOR));
    let right = match (ours, theirs) {
        (Some(ours), Some(theirs)) => ours == theirs || (ours < theirs && journey.efforts.contains(&0)),
        _ => ours == theirs,
    };
    (!right).then(|| format!("costs {ours:?}, the crate's route {theirs:?}"))
}

/// The arguments of a journey that are numbers, the length of the run, and the efforts.
fn arguments(journey: &Journey, entries: usize) -> Vec<i64> {
    let mut arguments = journey.centre.to_array().map(i64::from).to_vec();
    arguments.push(journey.radius.into());
    arguments.extend([journey.start, journey.end].map(|tile| tile.to_array().map(i64::from)).concat());
    arguments.push(entries as i64);
    arguments.extend(journey.efforts.iter().map(|&effort| i64::from(effort)));
    arguments
}
