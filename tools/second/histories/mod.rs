//! Histories of a recorder's calls from a seed, the model against the library.

mod arguments;
mod count;
mod forged;
mod fresh;
mod pair;
mod refusals;
mod whole;

use crate::random::Random;
pub use count::Counts;

/// The history of this index. The rare kinds come at fixed places, so that each run has them.
pub fn history(seed: u64, index: u64, counts: &mut Counts) -> Result<(), String> {
    let mut random = Random::for_trace(seed, index);
    counts.histories += 1;
    match index % 200 {
        199 => fresh::to_most_ever(&mut random, counts),
        place if place % 20 == 0 => fresh::to_most_holes(&mut random, counts),
        place if place % 20 <= 2 => refusals::refusals(&mut random, counts),
        place if place % 20 <= 9 => forged::forged(&mut random, counts),
        _ => fresh::mixed(&mut random, counts),
    }
}
