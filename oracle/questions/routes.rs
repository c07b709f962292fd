//! Questions about routes. The crate answers one route and no ranks, and its choice among routes
//! of one cost is not ours. So the ranks and the route of a line are worked out here by a search
//! of our own, plain and slow, and the crate's route must cost what ours does.

use crate::generator::Generator;
use crate::samples::Centres;
use crate::sheet::{ACCEPTED, NO_OPEN_PATH, ROUTE, Sheet};
use crate::stop;
use hexx::Hex;
use hexx::algorithms::a_star;
use hexx::storage::{HexModMap, HexStore};

/// The effort that bars a tile.
const BARRED: u16 = u16::MAX;

/// What the entries of a lent run hold before a route is asked for.
const UNTOUCHED: i64 = -7;

/// The six steps, in the order of our direction numbers.
const STEPS: [Hex; 6] = [
    Hex::new(1, 0),
    Hex::new(1, -1),
    Hex::new(0, -1),
    Hex::new(-1, 0),
    Hex::new(-1, 1),
    Hex::new(0, 1),
];

/// A rank as its cost and its steps, or none where no route leads to the end.
pub type Rank = Option<(u64, u64)>;

/// A map with its efforts by index, and the two ends of a route.
pub struct Journey {
    pub centre: Hex,
    pub radius: u32,
    pub start: Hex,
    pub end: Hex,
    pub efforts: Vec<u16>,
}

impl Journey {
    /// The crate's map of a table, which it keeps in the order of its indices.
    fn by_tile<T: Copy>(&self, table: &[T]) -> HexModMap<T> {
        let mut entries = table.iter().copied();
        HexModMap::new(self.centre, self.radius, |_| entries.next().unwrap())
    }

    /// The effort of an open tile of the map.
    fn open(efforts: &HexModMap<u16>, tile: Hex) -> Option<u64> {
        efforts.get(tile).copied().filter(|&effort| effort != BARRED).map(u64::from)
    }

    /// The rank of every tile by index, from the paper: each rank is lowered by a step as long as
    /// one can be. Nothing of the crate's search and nothing of the library is used.
    fn ranks(&self) -> Vec<Rank> {
        let efforts = self.by_tile(&self.efforts);
        let mut ranks: HexModMap<Rank> = self.by_tile(&vec![None; self.efforts.len()]);
        if Self::open(&efforts, self.end).is_some() {
            *ranks.get_mut(self.end).unwrap() = Some((0, 0));
        }
        let tiles: Vec<Hex> = ranks.iter().map(|(tile, _)| tile).collect();
        let mut lowered = true;
        while lowered {
            let open = tiles.iter().filter(|&&tile| Self::open(&efforts, tile).is_some());
            lowered = open.fold(false, |any, &tile| lower(&efforts, &mut ranks, tile) || any);
        }
        tiles.iter().map(|&tile| *ranks.get(tile).unwrap()).collect()
    }

    /// The tiles of the best route: from the start on, the first direction that makes up the rank.
    pub fn best(&self, ranks: &[Rank]) -> Option<Vec<Hex>> {
        let efforts = self.by_tile(&self.efforts);
        let ranks = self.by_tile(ranks);
        let mut tile = self.start;
        let mut rank = (*ranks.get(tile)?)?;
        let mut route = vec![tile];
        while tile != self.end {
            let next = STEPS.iter().map(|&step| tile + step).find_map(|next| {
                let effort = Self::open(&efforts, next)?;
                let (cost, steps) = (*ranks.get(next)?)?;
                ((cost + effort, steps + 1) == rank).then_some((next, (cost, steps)))
            });
            (tile, rank) = next.unwrap_or_else(|| stop("a rank is not made up by any step"));
            route.push(tile);
        }
        Some(route)
    }

    /// The crate's route.
    fn of_crate(&self) -> Option<Vec<Hex>> {
        self.of_crate_at(|effort| effort)
    }

    /// The crate's route where an effort has a price. Its closure is asked for the tile that is
    /// entered, and for the two ends, which must be open; the search itself adds nothing to what
    /// it answers.
    pub fn of_crate_at(&self, price: impl Fn(u32) -> u32) -> Option<Vec<Hex>> {
        let efforts = self.by_tile(&self.efforts);
        let open = |tile| Self::open(&efforts, tile).map(|effort| price(effort as u32));
        let route = a_star(self.start, self.end, |_, to| open(to))?;
        let joined = route.windows(2).all(|pair| STEPS.contains(&(pair[1] - pair[0])));
        if route.first() != Some(&self.start) || route.last() != Some(&self.end) || !joined {
            stop("the crate's route does not lead from the start to the end");
        }
        Some(route)
    }

    /// The cost of a route: the efforts of the tiles after the start.
    pub fn cost(&self, route: &[Hex]) -> u64 {
        let efforts = self.by_tile(&self.efforts);
        let entered = route[1..].iter().map(|&tile| Self::open(&efforts, tile));
        entered.sum::<Option<u64>>().unwrap_or_else(|| stop("a route enters a barred tile"))
    }

    /// Says whether the crate's route is dearer than the best one. The program stops where it is
    /// cheaper, where only one of the two is there, and where it is dearer though no effort is 0.
    fn dearer(&self, ranks: &[Rank]) -> bool {
        let routes = [self.best(ranks), self.of_crate()];
        match routes.map(|route| route.map(|tiles| self.cost(&tiles))) {
            [None, None] => false,
            [Some(best), Some(told)] if told == best => false,
            [Some(best), Some(told)] if told > best && self.efforts.contains(&0) => true,
            _ => stop("the crate's route does not cost what the best one does"),
        }
    }

    /// Writes a route, or that there is none, with the ranks and a run of so many entries.
    fn line(&self, sheet: &mut Sheet, ranks: &[Rank], route: Option<Vec<Hex>>, entries: usize) {
        let number = if route.is_some() { ACCEPTED } else { NO_OPEN_PATH };
        let tiles = route.unwrap_or_default();
        let area = self.efforts.len() as i64;
        let mut words = vec![ROUTE];
        words.extend(self.centre.to_array().map(i64::from));
        words.push(self.radius.into());
        words.extend([self.start, self.end].iter().flat_map(|tile| tile.to_array().map(i64::from)));
        words.extend([area, area, entries as i64]);
        words.extend(self.efforts.iter().map(|&effort| i64::from(effort)));
        words.extend([number, tiles.len() as i64]);
        words.extend(tiles.iter().flat_map(|tile| tile.to_array().map(i64::from)));
        words.extend((2 * tiles.len()..entries).map(|_| UNTOUCHED));
        words.extend(ranks.iter().flat_map(|rank| match rank {
            Some((cost, steps)) => [*cost as i64, *steps as i64],
            None => [-1, 0],
        }));
        sheet.line(&words);
    }
}

/// Lowers the rank of an open tile to the least that a step offers, and says whether it did.
fn lower(efforts: &HexModMap<u16>, ranks: &mut HexModMap<Rank>, tile: Hex) -> bool {
    let offers = STEPS.iter().filter_map(|&step| {
        let effort = Journey::open(efforts, tile + step)?;
        let (cost, steps) = (*ranks.get(tile + step)?)?;
        Some((cost + effort, steps + 1))
    });
    let least = offers.min();
    let rank = ranks.get_mut(tile).unwrap();
    let lowers = least.is_some() && (rank.is_none() || least < *rank);
    if lowers {
        *rank = least;
    }
    lowers
}

/// How many journeys are asked.
const JOURNEYS: usize = 6_000;

/// The efforts of a journey's tiles, by turns: flat, gentle, rough, gentle with barred tiles,
/// mostly barred, and the same five with efforts of 0 among them.
pub fn ground(generator: &mut Generator, turn: usize, area: usize) -> Vec<u16> {
    let least = if turn % 2 == 0 { 1 } else { 0 };
    let mut effort = || {
        let gentle = generator.between(least, least + 3) as u16;
        let chance = generator.between(0, 9);
        match turn / 2 % 5 {
            0 => generator.between(least, 1) as u16,
            1 => gentle,
            2 => generator.between(least, 40) as u16,
            3 if chance < 3 => BARRED,
            4 if chance < 5 => BARRED,
            _ => gentle,
        }
    };
    (0..area).map(|_| effort()).collect()
}

/// A journey by turns, over a map of radius 0 to 5, between any two tiles.
fn journey(generator: &mut Generator, centre: Hex, turn: usize) -> Journey {
    let radius = generator.between(0, 5) as u32;
    let area = Hex::range_count(radius) as usize;
    let mut journey = Journey {
        centre,
        radius,
        start: centre,
        end: centre,
        efforts: ground(generator, turn, area),
    };
    let tiles: Vec<Hex> = journey.by_tile(&journey.efforts).iter().map(|(tile, _)| tile).collect();
    journey.start = tiles[generator.between(0, area as i32 - 1) as usize];
    journey.end = tiles[generator.between(0, area as i32 - 1) as usize];
    journey
}

pub fn ask(sheet: &mut Sheet) {
    let generator = &mut Generator::new(0x0A57_A400_0000_000B);
    let centres = &mut Centres::new(0x0CE4_7435_0000_000C);
    let (mut without, mut dearer) = (0, 0);
    sheet.comment(
        "40 route: 40 map sx sy ex ey efforts ranks entries effort.. number tiles run.. rank..",
    );
    for turn in 0..JOURNEYS {
        let journey = journey(generator, centres.next(), turn);
        let ranks = journey.ranks();
        without += usize::from(!journey.efforts.contains(&0));
        dearer += usize::from(journey.dearer(&ranks));
        let best = journey.best(&ranks);
        let entries = 2 * best.as_ref().map_or(0, Vec::len) + turn % 4;
        journey.line(sheet, &ranks, best, entries);
    }
    let equal = JOURNEYS - without - dearer;
    println!(
        "Of {JOURNEYS} journeys {without} have no effort of 0: on each the crate's route costs what \
         the best one does, or neither is there. So it is on {equal} of the others; on {dearer} the \
         crate's is dearer."
    );
}

pub fn differences(sheet: &mut Sheet) {
    sheet.comment(
        "40 route, where an effort is 0: the crate takes each step to the end to cost at least 1,\n\
         and may go a dearer way. On no map with fewer tiles does it. It has no ranks: those in the\n\
         line are the paper's.",
    );
    let Some((journey, ranks)) = smallest() else {
        stop("the crate's route is never dearer on a map of radius 1");
    };
    let best = journey.best(&ranks).unwrap_or_default();
    sheet.comment(&format!("exact cost {}, by {} tiles", journey.cost(&best), best.len()));
    journey.line(sheet, &ranks, journey.of_crate(), 2 * best.len());
}

/// The first map of radius 1 with efforts of 0 and 1 on which the crate's route is dearer, with as
/// few efforts of 1 as can be. On a map of radius 0 there is one tile and nothing to choose.
fn smallest() -> Option<(Journey, Vec<Rank>)> {
    let mut tables: Vec<u32> = (0..1 << 7).collect();
    tables.sort_by_key(|bits| bits.count_ones());
    let pairs = STEPS.iter().flat_map(|&start| STEPS.iter().map(move |&end| (start, end)));
    let ends: Vec<(Hex, Hex)> = pairs.collect();
    let journeys = tables.iter().flat_map(|bits| {
        ends.iter().map(move |&(start, end)| Journey {
            centre: Hex::ZERO,
            radius: 1,
            start,
            end,
            efforts: (0..7).map(|at| (bits >> at & 1) as u16).collect(),
        })
    });
    let mut ranked = journeys.map(|journey| {
        let ranks = journey.ranks();
        (journey, ranks)
    });
    ranked.find(|(journey, ranks)| journey.dearer(ranks))
}
