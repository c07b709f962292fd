//! The speed of the library's riding range, totals check and route, as shares of the time that plain Rust takes for the
//! range and for the ranks in the same run; how the time grows with the radius; and the stack that each call takes.

mod answers;
mod baseline;
mod library;
mod maps;
mod stack;
mod timing;

use maps::{area, Land};
use timing::Times;

/// The radii that are measured; the last is the largest that a map may have.
const RADII: [i64; 3] = [15, 30, 60];

/// How often all maps of all radii are gone through, so that each is timed at several moments.
const PASSES: usize = 8;

/// How many tiles are gone through on a map in one pass: smaller maps get more rounds than large ones.
const TILES: usize = 500_000;

/// The maps of a radius and their times.
type Measured = Vec<(Land, Times)>;

fn main() {
    let mut measured = RADII.map(|radius| maps::all(radius).into_iter().map(|land| (land, Times::none())).collect());
    all(&mut measured, |land, _| answers::compare(land));
    println!("every table and route of the library is the baseline's, and every verdict of the check that of a plain scan");
    for _ in 0..PASSES {
        all(&mut measured, |land, times| times.take(land, TILES / land.efforts.len()));
    }
    shares(&measured[RADII.len() - 1]);
    growth(&measured);
    stack_taken();
}

/// Does something with every map and its times.
fn all(measured: &mut [Measured], act: fn(&Land, &mut Times)) {
    for (land, times) in measured.iter_mut().flatten() {
        act(land, times);
    }
}

/// Prints the library's times as shares of the baseline's.
fn shares(measured: &Measured) {
    println!();
    println!("time as a share of the baseline's, radius {}", measured[0].0.radius);
    println!("{:<14}{:>8}{:>8}{:>8}{:>8}", "map", "range", "check", "ranks", "route");
    for (land, times) in measured {
        let ranges = format!("{:>8.2}{:>8.2}", times.range / times.baseline, times.check / times.baseline);
        let routes = format!("{:>8.2}{:>8.2}", times.ranks / times.ranks_baseline, times.route / times.ranks_baseline);
        println!("{:<14}{ranges}{routes}", land.name);
    }
}

/// Prints how many times longer each call takes than on the map of that name of the smallest radius.
fn growth(measured: &[Measured]) {
    println!();
    println!("time as a multiple of that at radius {}", RADII[0]);
    let radii: String = RADII[1..].iter().map(|radius| format!("{radius:>8}")).collect();
    println!("{:<14}{:<14}{radii}", "map", "radius");
    let row = |name: &str, call: &str, value: &dyn Fn(usize) -> f64| {
        let cells: String = (1..RADII.len()).map(|at| format!("{:>8.1}", value(at) / value(0))).collect();
        println!("{name:<14}{call:<14}{cells}");
    };
    row("(tiles)", "", &|at| area(RADII[at]) as f64);
    for map in 0..measured[0].len() {
        let name = measured[0][map].0.name;
        row(name, "range", &|at| measured[at][map].1.range);
        row("", "check", &|at| measured[at][map].1.check);
        row("", "baseline", &|at| measured[at][map].1.baseline);
        row("", "route", &|at| measured[at][map].1.route);
        row("", "its baseline", &|at| measured[at][map].1.ranks_baseline);
    }
}

/// Prints the stack that each call takes.
fn stack_taken() {
    println!();
    println!("stack in bytes, from the caller's stack pointer down");
    println!("{:<14}{:>8}{:>8}{:>8}", "radius", "range", "check", "route");
    for radius in RADII {
        let land = &maps::all(radius)[0];
        let mut totals = vec![0; land.efforts.len()];
        let range = stack::taken_by(|| {
            library::range(land, u32::MAX, &mut totals);
        });
        let check = stack::taken_by(|| {
            library::check(land, u32::MAX, &totals, &mut []);
        });
        let mut ranks = vec![0; land.efforts.len()];
        let route = stack::taken_by(|| {
            library::route(land, (radius, 0), &mut ranks, &mut vec![0; 2 * land.efforts.len()]);
        });
        println!("{radius:<14}{range:>8}{check:>8}{route:>8}");
    }
}
