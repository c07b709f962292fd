//! Questions about how many tiles a ring and a wedge have.

use crate::generator::Generator;
use crate::sheet::{RING_COUNT, Sheet, WEDGE_COUNT};
use crate::stop;
use hexx::Hex;

/// A count as two words, its milliards and the rest, since not every exact count is
/// one signed 64-bit number.
fn parts(count: u64) -> [i64; 2] {
    [count / 1_000_000_000, count % 1_000_000_000].map(|part| part as i64)
}

fn line(sheet: &mut Sheet, kind: i64, range: u32, count: u64) {
    let [milliards, rest] = parts(count);
    sheet.line(&[kind, i64::from(range), milliards, rest]);
}

/// The count of a wedge in whole numbers.
fn exact(range: u32) -> u64 {
    let range = u128::from(range);
    (range * (range + 3) / 2 + 1) as u64
}

/// The smallest range at which the crate's count of a wedge is not exact.
fn first_wrong() -> u32 {
    (0..=u32::MAX)
        .find(|&range| u64::from(Hex::wedge_count(range)) != exact(range))
        .unwrap_or_else(|| stop("the crate's count of a wedge is exact everywhere"))
}

/// Asks for the counts where the crate's are exact: those of rings everywhere, those
/// of wedges below the first wrong one.
pub fn ask(sheet: &mut Sheet) {
    let generator = &mut Generator::new(0x0C04_7000_0000_0006);
    let below = first_wrong();
    let mut ranges: Vec<u32> = (0..=60).chain([1_000, 1_001]).collect();
    ranges.extend((0..10).map(|_| generator.between(61, below as i32 - 1) as u32));
    ranges.push(below - 1);
    sheet.comment("15 ring count: 15 range milliards rest");
    for &range in ranges.iter().chain(&[below, 65_536, u32::MAX]) {
        line(sheet, RING_COUNT, range, Hex::ring_count(range) as u64);
    }
    sheet.comment(
        "16 wedge count: 16 range milliards rest\n\
         The crate's count is exact up to the last range asked here.",
    );
    for range in ranges {
        line(sheet, WEDGE_COUNT, range, Hex::wedge_count(range).into());
    }
}

pub fn differences(sheet: &mut Sheet) {
    sheet.comment(&format!(
        "16 wedge count, from {} on, the smallest range at which it is wrong: the crate wraps round.\n\
         The paper never refuses a count and answers it exactly.",
        first_wrong(),
    ));
    for range in [first_wrong(), 65_536, u32::MAX] {
        if u64::from(Hex::wedge_count(range)) == exact(range) {
            stop("a count listed as a difference is exact");
        }
        let [milliards, rest] = parts(exact(range));
        sheet.comment(&format!("exact {milliards} {rest}"));
        line(sheet, WEDGE_COUNT, range, Hex::wedge_count(range).into());
    }
}
