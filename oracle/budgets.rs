//! Asks the published field of movement once, and says how long it took, and how much memory the
//! process used and had asked for at most. The arguments are the ground and the budget: `barred` ground has
//! no tile that can be entered, as outside a map of radius 0; `open` ground is flat and has no end.

use hexx::Hex;
use hexx::algorithms::field_of_movement;
use std::time::Instant;

/// A size of this process in MiB, as the system names and tells it.
fn size(name: &str) -> Option<u64> {
    let status = std::fs::read_to_string("/proc/self/status").ok()?;
    let line = status.lines().find(|line| line.starts_with(name))?;
    let kib: u64 = line.split_whitespace().nth(1)?.parse().ok()?;
    Some(kib / 1024)
}

fn main() {
    let words: Vec<String> = std::env::args().skip(1).collect();
    let [ground, budget] = words.as_slice() else {
        panic!("the ground and the budget are wanted");
    };
    let budget: u32 = budget.parse().expect("the budget is no number of 32 bits");
    let cost = match ground.as_str() {
        "barred" => None,
        "open" => Some(0),
        _ => panic!("there is no such ground"),
    };
    let begun = Instant::now();
    let tiles = field_of_movement(Hex::ZERO, budget, |_| cost).len();
    let took = begun.elapsed().as_millis();
    let [used, asked] = ["VmHWM:", "VmPeak:"].map(|name| size(name).unwrap_or(0));
    println!(
        "budget {budget}, {ground} ground: {tiles} tiles, {took} ms, {used} MiB used, {asked} MiB asked for"
    );
}
