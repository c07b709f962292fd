//! Questions about the lists of rings, ring edges, wedges, corner wedges and spirals.

use crate::mapping::{edge, edge_clockwise, ring_clockwise, vertex};
use crate::samples::{Centres, LIMIT};
use crate::sheet::{ACCEPTED, CORNER_WEDGE, RING, RING_EDGE, SPIRAL, Sheet, WEDGE};
use crate::stop;
use hexx::Hex;

/// What an entry of a run holds before the call.
const UNTOUCHED: i32 = -7;

/// A run of at most this many entries is written entry by entry, a longer one as
/// its digest.
pub const SHOWN: usize = 400;

/// The most entries that a run may have.
const ROOM: usize = 65_536;

/// First and last ranges that are asked in every direction and sense.
const NEAR: [(u32, u32); 20] = [
    (0, 0),
    (0, 1),
    (0, 2),
    (0, 3),
    (1, 2),
    (2, 3),
    (0, 4),
    (0, 7),
    (0, 12),
    (1, 5),
    (2, 6),
    (3, 9),
    (4, 4),
    (5, 8),
    (6, 12),
    (7, 10),
    (9, 9),
    (10, 12),
    (11, 12),
    (12, 12),
];

/// A first range above the last, of which the list is empty.
const EMPTY: [(u32, u32); 5] = [(1, 0), (12, 0), (5, 4), (1_000, 0), (1_000, 999)];

/// Ranges of rings and of edges with longer lists. An edge of range 199 fills the
/// longest run that is written entry by entry.
const FAR_RINGS: [u32; 7] = [20, 33, 34, 100, 333, 999, 1_000];
const FAR_EDGES: [u32; 7] = [13, 50, 199, 200, 500, 999, 1_000];

/// First and last ranges with longer lists, some of which nearly fill the longest
/// run. The corner wedge from 0 to 255 fills it.
const FAR_WEDGES: [(u32, u32); 6] = [
    (0, 100),
    (0, 254),
    (13, 40),
    (990, 994),
    (969, 1_000),
    (1_000, 1_000),
];
const FAR_CORNERS: [(u32, u32); 6] = [
    (0, 100),
    (0, 255),
    (13, 40),
    (990, 994),
    (969, 1_000),
    (1_000, 1_000),
];
const FAR_SPIRALS: [(u32, u32); 6] = [
    (0, 100),
    (0, 104),
    (13, 20),
    (990, 994),
    (996, 1_000),
    (1_000, 1_000),
];

/// The question of a list in our numbers. A ring and an edge have one range, so
/// their last is their first; a corner wedge has no sense, so its sense is 0.
#[derive(Clone, Copy)]
struct List {
    kind: i64,
    first: u32,
    last: u32,
    direction: usize,
    sense: usize,
}

impl List {
    /// Asks the crate.
    fn tiles(self, centre: Hex) -> Vec<Hex> {
        let ranges = self.first..=self.last;
        let (edge, vertex) = (edge(self.direction), vertex(self.direction));
        let ring = ring_clockwise(self.sense);
        let side = edge_clockwise(self.sense);
        match self.kind {
            RING => centre.custom_ring(self.first, edge, ring).collect(),
            RING_EDGE => centre.custom_ring_edge(self.first, vertex, side).collect(),
            WEDGE => centre.custom_wedge(ranges, vertex, side).collect(),
            CORNER_WEDGE => centre.corner_wedge(ranges, edge).collect(),
            SPIRAL => centre.custom_spiral_range(ranges, edge, ring).collect(),
            kind => stop(&format!("kind {kind} is no list")),
        }
    }

    /// Asks the crate and writes the line of a run that has `over` entries more
    /// than the list fills. A run that would be too long has none more.
    fn line(self, sheet: &mut Sheet, centre: Hex, over: usize) {
        let tiles = self.tiles(centre);
        let mut run: Vec<i32> = tiles.iter().flat_map(|tile| tile.to_array()).collect();
        let filled = run.len();
        if filled + over <= ROOM {
            run.resize(filled + over, UNTOUCHED);
        }
        if run.len() > ROOM {
            stop("a list does not fit the longest run");
        }
        let [x, y] = centre.to_array().map(i64::from);
        let ranges = [self.first, self.last].map(i64::from);
        let turn = [self.direction, self.sense].map(|number| number as i64);
        let mut words = vec![self.kind, x, y];
        words.extend(ranges);
        words.extend(turn);
        words.extend([run.len() as i64, ACCEPTED, tiles.len() as i64]);
        if run.len() <= SHOWN {
            words.extend(run.iter().map(|&entry| i64::from(entry)));
        } else {
            words.push(digest(&run));
        }
        sheet.line(&words);
    }
}

/// The digest of a run: each entry, counted from the lowest 32-bit number, is added
/// to 31 times the digest so far, modulo a prime.
fn digest(run: &[i32]) -> i64 {
    run.iter().fold(0, |digest, &entry| {
        (digest * 31 + i64::from(entry) + 2_147_483_648) % 1_000_000_007
    })
}

/// The list questions of a kind about the ranges, in every direction and sense.
fn turned(kind: i64, (first, last): (u32, u32)) -> Vec<List> {
    let senses = if kind == CORNER_WEDGE { 1 } else { 2 };
    (0..6 * senses)
        .map(|turn| List {
            kind,
            first,
            last,
            direction: turn / senses,
            sense: turn % senses,
        })
        .collect()
}

/// Asks about the middle with both lengths of the run, and about one more centre.
fn near(centres: &mut Centres, sheet: &mut Sheet, kind: i64, ranges: (u32, u32)) {
    for list in turned(kind, ranges) {
        list.line(sheet, Hex::ZERO, 0);
        list.line(sheet, Hex::ZERO, 2);
    }
    far(centres, sheet, kind, ranges);
}

/// Asks about one centre. The length of the run changes with each turn of the centres.
fn far(centres: &mut Centres, sheet: &mut Sheet, kind: i64, ranges: (u32, u32)) {
    for list in turned(kind, ranges) {
        let over = centres.turns() % 2 * 2;
        list.line(sheet, centres.next(), over);
    }
}

pub fn ask(sheet: &mut Sheet) {
    let centres = &mut Centres::new(0x0415_7000_0000_0005);
    for (kind, name, longer) in [
        (RING, "10 ring", FAR_RINGS),
        (RING_EDGE, "11 ring edge", FAR_EDGES),
    ] {
        sheet.comment(&format!(
            "{name}: {kind} x y range range direction sense room number tiles run"
        ));
        (0..=12).for_each(|range| near(centres, sheet, kind, (range, range)));
        longer.map(|range| far(centres, sheet, kind, (range, range)));
    }
    for (kind, name, longer) in [
        (WEDGE, "12 wedge", FAR_WEDGES),
        (CORNER_WEDGE, "13 corner wedge", FAR_CORNERS),
        (SPIRAL, "14 spiral", FAR_SPIRALS),
    ] {
        sheet.comment(&format!(
            "{name}: {kind} x y first last direction sense room number tiles run"
        ));
        NEAR.map(|ranges| near(centres, sheet, kind, ranges));
        EMPTY.map(|ranges| near(centres, sheet, kind, ranges));
        longer.map(|ranges| far(centres, sheet, kind, ranges));
    }
}

pub fn differences(sheet: &mut Sheet) {
    sheet.comment(
        "10 to 14, of a centre beyond the limit, here (1000001, 0): the crate lists tiles.\n\
         The paper refuses it with number 1 and answers no tiles.",
    );
    let beyond = Hex::new(LIMIT + 1, 0);
    for kind in [RING, RING_EDGE, WEDGE, CORNER_WEDGE, SPIRAL] {
        turned(kind, (1, 1))[0].line(sheet, beyond, 0);
    }
    sheet.comment(
        "10 to 14, of a range above 1000, here 1001: the crate lists tiles.\n\
         The paper refuses it with number 2 and answers no tiles.",
    );
    for kind in [RING, RING_EDGE, WEDGE, CORNER_WEDGE, SPIRAL] {
        turned(kind, (1_001, 1_001))[0].line(sheet, Hex::ZERO, 0);
    }
}
