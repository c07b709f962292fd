//! A part of a sheet that is small enough to be kept beside the code.

use crate::ranges::BUDGET;
use crate::rings::SHOWN;
use crate::sheet::{RING_COUNT, Sheet};

/// Of the lines that no rule names, each one after this many is kept. It is no
/// multiple of 2 or 3, so that every direction and sense is met.
const STRIDE: usize = 17;

/// Says whether a rule names the line of a list or a count: it has small ranges, or a
/// digest, or the count of a range beyond those that are asked one by one.
fn list_named(words: &[i64]) -> bool {
    if words[0] >= RING_COUNT {
        return words[1] <= 3 || words[1] > 60;
    }
    let small = words[3] <= 3 && words[4] <= 3;
    small || words[7] > SHOWN as i64
}

/// Says whether a rule names the line of a map: it has a small radius or the largest.
fn map_named(words: &[i64]) -> bool {
    words[3] <= 3 || words[3] == 60
}

/// Says whether a rule names the line of a range: it has the largest budget.
fn range_named(words: &[i64]) -> bool {
    words[6] == i64::from(BUDGET)
}

/// The lines of the sheet of lists and counts that are kept, with all its comments.
pub fn of_lists(lists: &Sheet) -> Sheet {
    let heading = "A part of the answers on lists, chosen by fixed rules.";
    kept(lists, heading, list_named)
}

/// The lines of the sheet of maps that are kept, with all its comments.
pub fn of_maps(maps: &Sheet) -> Sheet {
    let heading = "A part of the answers on maps, chosen by fixed rules.";
    kept(maps, heading, map_named)
}

/// The lines of the sheet of ranges that are kept, with all its comments.
pub fn of_ranges(ranges: &Sheet) -> Sheet {
    let heading = "A part of the answers on ranges, chosen by fixed rules.";
    kept(ranges, heading, range_named)
}

/// The lines of the sheet of routes that are kept, with all its comments. No rule names one.
pub fn of_routes(routes: &Sheet) -> Sheet {
    let heading = "A part of the best routes and ranks, chosen by fixed rules.";
    kept(routes, heading, |_| false)
}

/// The lines of a sheet that a rule names, and of the others each one after a fixed number.
fn kept(whole: &Sheet, heading: &str, named: fn(&[i64]) -> bool) -> Sheet {
    let mut sheet = Sheet::new(heading);
    let mut passed = 0;
    for line in whole.text().lines() {
        if let Some(comment) = line.strip_prefix("# ") {
            sheet.comment(comment);
            continue;
        }
        let words: Vec<i64> = line
            .split(' ')
            .filter_map(|word| word.parse().ok())
            .collect();
        if !named(&words) {
            passed += 1;
            if passed % STRIDE != 0 {
                continue;
            }
        }
        sheet.line(&words);
    }
    sheet
}
