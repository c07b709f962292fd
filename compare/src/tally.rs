//! Counts the inputs that were compared, by call and each once, and keeps the first differences to be shown.

use crate::stop;
use std::collections::HashSet;
use std::fmt::{Debug, Write};

/// The calls, each with the number of inputs that must at least be compared, so that no comparison falls away unnoticed.
const FLOORS: [(&str, u64); 19] = [
    ("kyrla_distance", 200_000),
    ("kyrla_index", 100_000),
    ("kyrla_tile", 100_000),
    ("kyrla_row_column", 100_000),
    ("kyrla_tile_at", 100_000),
    ("kyrla_to_offset", 100_000),
    ("kyrla_from_offset", 100_000),
    ("kyrla_to_doubled", 100_000),
    ("kyrla_from_doubled", 100_000),
    ("kyrla_ring_count", 100_000),
    ("kyrla_wedge_count", 65_535),
    ("kyrla_ring", 20_000),
    ("kyrla_ring_edge", 20_000),
    ("kyrla_wedge", 20_000),
    ("kyrla_corner_wedge", 20_000),
    ("kyrla_spiral", 20_000),
    ("kyrla_range", 3_000),
    ("kyrla_check", 6_000),
    ("kyrla_route", 5_000),
];

/// The number of inputs that must at least be compared in all.
const FLOOR: u64 = 1_000_000;

/// How many differences of one call are shown.
const SHOWN: u64 = 3;

/// What a call answered: its number, and the entries of the memory that it was lent.
pub type Answer<'a, E> = (i64, &'a [E]);

struct Row {
    call: &'static str,
    floor: u64,
    compared: u64,
    differ: u64,
}

pub struct Tally {
    rows: Vec<Row>,
    /// The inputs so far, by the place of their call among the rows. An input that comes again tells nothing new and is not counted.
    seen: HashSet<(usize, Vec<i64>)>,
    differences: String,
}

impl Tally {
    pub fn new() -> Self {
        let row = |&(call, floor): &(&'static str, u64)| Row { call, floor, compared: 0, differ: 0 };
        Self { rows: FLOORS.iter().map(row).collect(), seen: HashSet::new(), differences: String::new() }
    }

    /// Counts one input, and what is wrong with its answer if anything is.
    pub fn judge(&mut self, call: &str, arguments: &[i64], wrong: Option<String>) {
        let Some(at) = self.rows.iter().position(|row| row.call == call) else {
            stop(&format!("{call} is not among the calls that are counted"));
        };
        if !self.seen.insert((at, arguments.to_vec())) {
            return;
        }
        let row = &mut self.rows[at];
        row.compared += 1;
        let Some(wrong) = wrong else {
            return;
        };
        row.differ += 1;
        if row.differ <= SHOWN {
            let words: Vec<String> = arguments.iter().map(i64::to_string).collect();
            self.differences += &format!("{call}({}): {wrong}\n", words.join(", "));
        }
    }

    /// Compares one answer with what it should be, in full.
    pub fn compare<E: PartialEq + Debug>(&mut self, call: &str, arguments: &[i64], ours: Answer<E>, theirs: Answer<E>) {
        self.judge(call, arguments, difference(ours, theirs));
    }

    /// Compares one answer that is a number alone.
    pub fn compare_number(&mut self, call: &str, arguments: &[i64], ours: i64, theirs: i64) {
        self.compare::<i32>(call, arguments, (ours, &[]), (theirs, &[]));
    }

    fn compared(&self) -> u64 {
        self.rows.iter().map(|row| row.compared).sum()
    }

    fn differ(&self) -> u64 {
        self.rows.iter().map(|row| row.differ).sum()
    }

    /// Says whether nothing differs and every floor is reached.
    pub fn holds(&self) -> bool {
        let floors = self.rows.iter().all(|row| row.compared >= row.floor);
        self.differ() == 0 && floors && self.compared() >= FLOOR
    }

    /// The first differences, a line for each call, the floors that are not reached, and the total.
    pub fn text(&self) -> String {
        let mut text = self.differences.clone();
        let _ = writeln!(text, "{:<20}{:>9}{:>9}", "call", "inputs", "differ");
        for row in &self.rows {
            let below = if row.compared < row.floor { format!("  below the floor of {}", row.floor) } else { String::new() };
            let _ = writeln!(text, "{:<20}{:>9}{:>9}{below}", row.call, row.compared, row.differ);
        }
        if self.compared() < FLOOR {
            let _ = writeln!(text, "The inputs are below the floor of {FLOOR}.");
        }
        let _ = writeln!(text, "{} inputs, {} differ", self.compared(), self.differ());
        text
    }
}

/// What differs in two answers, if anything does: the number, the count of entries, or the first entry.
pub fn difference<E: PartialEq + Debug>(ours: Answer<E>, theirs: Answer<E>) -> Option<String> {
    if ours == theirs {
        return None;
    }
    if ours.0 != theirs.0 {
        return Some(format!("answers {}, should be {}", ours.0, theirs.0));
    }
    let entries = ours.1.iter().zip(theirs.1).enumerate();
    let first = entries.filter(|(_, (a, b))| a != b).map(|(at, (a, b))| format!("entry {at} is {a:?}, should be {b:?}")).next();
    Some(first.unwrap_or_else(|| format!("{} entries, should be {}", ours.1.len(), theirs.1.len())))
}
