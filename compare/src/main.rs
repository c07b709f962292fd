//! Compares the library's calls for C with the published crate hexx 0.25.0, over the inputs that both accept, and prints how many
//! inputs of each call were compared and how many differ. An input is one call with its arguments; it differs unless the number that
//! the call answers and every entry of the lent memory are what they should be, entries past the answer included.
//!
//! What `docs/DIFFERENCES.md` lists as decided otherwise is not compared:
//!
//! - a distance of which a difference passes 32 bits, and a wedge count from 65,535 on, which the crate wraps;
//! - an odd doubled pair, a tile or a centre beyond the limit, a radius above 60, a range above 1,000, and an unknown number, which
//!   the library refuses and the crate answers or cannot be asked about;
//! - a run or a table of the wrong length, since the crate has neither;
//! - an index from the area on, which the crate's formula takes to the centre or elsewhere;
//! - a budget above 180, for which the crate's memory and time grow with the budget.
//!
//! Some things are compared in a form that both share. A tile, or a row and column, that is not of the map is refusal 5, where the
//! crate's map has nothing. The crate's range is a set of tiles, and a total is the smallest budget whose set has the tile. The crate
//! has no totals check: the totals from its sets must be accepted, and damaged copies refused at the index that the neighbour rule, as
//! `oracle/` reads it, says. The crate's routes have no ranks and another choice among equals: `ways.rs` says how they are compared.
//!
//! The modules of `oracle/questions/` that ask the crate are used as they stand, with other seeds.

mod grids;
mod library;
mod lists;
mod numbers;
mod pairs;
mod riding;
mod tally;
mod tiles;
mod ways;

#[path = "../../oracle/questions/distance.rs"]
mod distance;
#[path = "../../oracle/questions/generator.rs"]
mod generator;
#[path = "../../oracle/questions/mapping.rs"]
mod mapping;
#[path = "../../oracle/questions/places.rs"]
mod places;
#[path = "../../oracle/questions/ranges.rs"]
mod ranges;
#[path = "../../oracle/questions/rides.rs"]
mod rides;
#[path = "../../oracle/questions/routes.rs"]
mod routes;
#[path = "../../oracle/questions/samples.rs"]
mod samples;
#[path = "../../oracle/questions/sheet.rs"]
mod sheet;

use tally::Tally;

/// Ends the program with a message where the crate is not as the comparison takes it to be.
pub fn stop(message: &str) -> ! {
    eprintln!("compare: {message}");
    std::process::exit(1)
}

fn main() {
    // The library's numbers become the crate's in `mapping`, and its maps are read by `places`: both are checked first.
    mapping::check();
    places::check();
    let mut tally = Tally::new();
    numbers::compare(&mut tally);
    grids::compare(&mut tally);
    tiles::compare(&mut tally);
    lists::compare(&mut tally);
    riding::compare(&mut tally);
    ways::compare(&mut tally);
    print!("{}", tally.text());
    if !tally.holds() {
        std::process::exit(1);
    }
}
