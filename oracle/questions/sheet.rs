//! A sheet is the text of one file of answers. It keeps each line only once,
//! since a repeated question tells nothing new.

use std::collections::{BTreeMap, HashSet};

/// The kinds of lines, kept in one place so that no number is given twice.
pub const DISTANCE: i64 = 1;
pub const TO_OFFSET: i64 = 2;
pub const FROM_OFFSET: i64 = 3;
pub const TO_DOUBLED: i64 = 4;
pub const FROM_DOUBLED: i64 = 5;
pub const NEIGHBOR: i64 = 6;
pub const OPPOSITE: i64 = 7;
pub const TURNED: i64 = 8;
pub const RING: i64 = 10;
pub const RING_EDGE: i64 = 11;
pub const WEDGE: i64 = 12;
pub const CORNER_WEDGE: i64 = 13;
pub const SPIRAL: i64 = 14;
pub const RING_COUNT: i64 = 15;
pub const WEDGE_COUNT: i64 = 16;
pub const IS_OF_MAP: i64 = 21;
pub const TO_INDEX: i64 = 22;
pub const FROM_INDEX: i64 = 23;
pub const TO_ROW_COLUMN: i64 = 24;
pub const FROM_ROW_COLUMN: i64 = 25;
pub const RIDING_RANGE: i64 = 30;
pub const TOTALS_CHECK: i64 = 31;
pub const ROUTE: i64 = 40;

/// The refusal number of an accepted question, of what is not of the map, of a route that no open
/// path makes, and of a table that is not right.
pub const ACCEPTED: i64 = 0;
pub const NOT_OF_MAP: i64 = 5;
pub const NO_OPEN_PATH: i64 = 8;
pub const NOT_RIGHT: i64 = 9;

pub struct Sheet {
    text: String,
    seen: HashSet<String>,
    counts: BTreeMap<i64, usize>,
}

impl Sheet {
    pub fn new(heading: &str) -> Self {
        let mut sheet = Self {
            text: String::new(),
            seen: HashSet::new(),
            counts: BTreeMap::new(),
        };
        sheet.comment(heading);
        sheet
    }

    /// Adds comment lines, one for each line of the text given.
    pub fn comment(&mut self, text: &str) {
        for line in text.lines() {
            self.text.push_str("# ");
            self.text.push_str(line);
            self.text.push('\n');
        }
    }

    /// Adds one line of numbers, of which the first is the kind.
    pub fn line(&mut self, numbers: &[i64]) {
        let words: Vec<String> = numbers.iter().map(i64::to_string).collect();
        let line = words.join(" ");
        if self.seen.insert(line.clone()) {
            self.text.push_str(&line);
            self.text.push('\n');
            *self.counts.entry(numbers[0]).or_default() += 1;
        }
    }

    pub fn text(&self) -> &str {
        &self.text
    }

    /// Says how many lines there are, in all and of each kind.
    pub fn tally(&self) -> String {
        let all: usize = self.counts.values().sum();
        let kinds: Vec<String> = self
            .counts
            .iter()
            .map(|(kind, count)| format!("{count} of kind {kind}"))
            .collect();
        format!("{all} lines, {}", kinds.join(", "))
    }
}
