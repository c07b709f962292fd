//! Asks the published crate and writes its answers as lines of numbers.
//! The one argument is the folder to write to. Each subject has a file of its
//! own, which is named here and asked from the function of its sheet; a new
//! sheet is added to `write_all`.

mod counts;
mod directions;
mod distance;
mod doubled;
mod excerpt;
mod generator;
mod mapping;
mod maps;
mod offset;
mod places;
mod ranges;
mod rides;
mod rings;
mod routes;
mod samples;
mod sheet;

use sheet::Sheet;
use std::path::Path;

/// Ends the program with a message, so that no file is written on a wrong footing.
pub fn stop(message: &str) -> ! {
    eprintln!("oracle: {message}");
    std::process::exit(1)
}

/// The questions about coordinates, directions and grids, where the paper accepts.
fn module12() -> Sheet {
    let mut sheet = Sheet::new(
        "Answers of the crate hexx 0.25.0 on coordinates, directions and grids.\n\
         Each line holds the kind, the arguments and the answer.\n\
         Every line is a question that the paper accepts, so each refusal number is 0.",
    );
    distance::ask(&mut sheet);
    offset::ask(&mut sheet);
    doubled::ask(&mut sheet);
    directions::ask(&mut sheet);
    sheet
}

/// The questions about lists and their counts, where the paper accepts.
fn module3() -> Sheet {
    let mut sheet = Sheet::new(
        "Answers of the crate hexx 0.25.0 on rings, ring edges, wedges, corner wedges and spirals.\n\
         A list is asked with a run of `room` entries, each -7 before the call; what the list\n\
         does not fill stays -7. A run of more than 400 entries is written as its digest.",
    );
    rings::ask(&mut sheet);
    counts::ask(&mut sheet);
    sheet
}

/// The questions about maps that the paper accepts, and those that the crate has no answer
/// to because what is asked about is not of the map.
fn module4() -> Sheet {
    let mut sheet = Sheet::new(
        "Answers of the crate hexx 0.25.0 on maps.\n\
         The map is three words: x and y of its centre, and its radius.\n\
         Where the crate's map has no such tile or place, the answer is refusal 5 and zeros.",
    );
    maps::ask(&mut sheet);
    sheet
}

/// The questions about the riding range that the paper accepts, and the tables that the totals
/// check is asked about.
fn module5() -> Sheet {
    let mut sheet = Sheet::new(
        "Answers of the crate hexx 0.25.0 on the riding range, and verdicts of the neighbour rule.\n\
         The map is three words, the start two; the lengths of the two tables stand before them.\n\
         The crate answers a set of tiles: a total is the smallest budget whose set has the tile.",
    );
    ranges::ask(&mut sheet);
    sheet
}

/// The questions about routes that the paper accepts, and those that no open path makes.
fn routes() -> Sheet {
    let mut sheet = Sheet::new(
        "Best routes and ranks by the paper; their costs were held to those of the crate hexx 0.25.0.\n\
         The map is three words, the start and the end two each; then come the lengths of the\n\
         tables and of the run. A rank is its cost and its steps, or -1 and 0 where there is none.",
    );
    routes::ask(&mut sheet);
    sheet
}

/// The questions on which the paper decides against the crate.
fn differences() -> Sheet {
    let mut sheet = Sheet::new(
        "Answers of the crate hexx 0.25.0 where the paper decides otherwise.\n\
         The lines have the form of the accepted ones but hold the crate's answer.\n\
         The crate refuses nothing here, so its refusal number is written as 0.",
    );
    distance::differences(&mut sheet);
    offset::differences(&mut sheet);
    doubled::differences(&mut sheet);
    rings::differences(&mut sheet);
    counts::differences(&mut sheet);
    maps::differences(&mut sheet);
    ranges::differences(&mut sheet);
    routes::differences(&mut sheet);
    sheet
}

/// Writes each sheet to its file and says how many lines of each kind it has.
fn write_all(folder: &Path) {
    let module3 = module3();
    let sample3 = excerpt::of_lists(&module3);
    let module4 = module4();
    let sample4 = excerpt::of_maps(&module4);
    let module5 = module5();
    let sample5 = excerpt::of_ranges(&module5);
    let routes = routes();
    let sample_routes = excerpt::of_routes(&routes);
    for (name, sheet) in [
        ("module12.txt", module12()),
        ("module3.txt", module3),
        ("sample3.txt", sample3),
        ("module4.txt", module4),
        ("sample4.txt", sample4),
        ("module5.txt", module5),
        ("sample5.txt", sample5),
        ("routes.txt", routes),
        ("sample_routes.txt", sample_routes),
        ("differences.txt", differences()),
    ] {
        if let Err(cause) = std::fs::write(folder.join(name), sheet.text()) {
            stop(&format!("{name} cannot be written: {cause}"));
        }
        println!("{name}: {}", sheet.tally());
    }
}

fn main() {
    let Some(folder) = std::env::args_os().nth(1) else {
        stop("the folder to write to is missing");
    };
    mapping::check();
    places::check();
    println!("The mapping of numbers and turning senses holds, and so does the order of the maps.");
    write_all(Path::new(&folder));
}
