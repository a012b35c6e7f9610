//! Lists of voltages, of which the model and the library tell highest, lowest and sum.

mod call;
mod count;
mod lists;

use crate::random::Random;
use call::{HIGH, LOW};
pub use count::Counts;

/// Lengths that `three` must not have. The low eight bits of the last one are 3.
const WRONG_LENGTHS: [usize; 6] = [0, 1, 2, 4, 5, 259];
/// The low sixteen bits of this one are 3.
const LONG_LENGTH: usize = 65_539;
/// How many places in memory a list is lent at, each two bytes behind the one before it.
const PLACES: usize = 8;

/// A call amid low numbers, and one amid high ones.
fn amid_both(volts: &[u16], three_len: usize, place: usize, counts: &mut Counts) -> Result<(), String> {
    call::compare(volts, three_len, place, LOW, counts)?;
    call::compare(volts, three_len, place, HIGH, counts)
}

/// Calls with one list: at every place, and with each wrong length of `three` at one of them.
fn everywhere(volts: &[u16], counts: &mut Counts) -> Result<(), String> {
    counts.lists += 1;
    for place in 0..PLACES {
        amid_both(volts, 3, place, counts)?;
    }
    for length in WRONG_LENGTHS {
        amid_both(volts, length, length % PLACES, counts)?;
    }
    Ok(())
}

/// The lists of every run, and then so many from the seed.
pub fn compare(seed: u64, count: u64, counts: &mut Counts) -> Result<(), String> {
    for volts in lists::fixed() {
        everywhere(&volts, counts)?;
    }
    for length in [2, 3, 12, 13] {
        amid_both(&lists::rising(length), LONG_LENGTH, 0, counts)?;
    }
    for index in 0..count {
        let volts = lists::from_seed(&mut Random::for_trace(seed, index));
        everywhere(&volts, counts)?;
    }
    Ok(())
}
