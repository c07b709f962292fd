//! Compares a call that writes a pair of numbers to a lent run.

use crate::sheet::NOT_OF_MAP;
use crate::tally::Tally;

/// What an entry of a run holds before a call. It is no coordinate that a call may answer.
pub const UNTOUCHED: i32 = -777_777_777;

/// The run has two entries more than the pair fills; these must be left as they were.
const ROOM: usize = 4;

/// Compares one answer. Where the crate's map has no such tile or place, the call must be refused and the whole run be left as it was.
pub fn compare(tally: &mut Tally, call: &str, arguments: &[i64], ours: impl FnOnce(&mut [i32]) -> i64, theirs: Option<[i32; 2]>) {
    let mut run = [UNTOUCHED; ROOM];
    let answer = ours(&mut run);
    let mut filled = [UNTOUCHED; ROOM];
    let number = match theirs {
        None => -NOT_OF_MAP,
        Some(pair) => {
            filled[..2].copy_from_slice(&pair);
            1
        }
    };
    tally.compare(call, arguments, (answer, &run), (number, &filled));
}
