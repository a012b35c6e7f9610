//! One call of the model and of the library, each with lists of its own, which are alike after it.

use super::count::Counts;
use crate::answer::{answer, in_words};
use crate::cells::cells;
use crate::lent::Lent;
use crate::library;

/// The number around the voltages, and the one in `three` and around it.
pub type Around = (u16, u32);
/// A voltage read from outside the list shows in the lowest one ..
pub const LOW: Around = (0, 0);
/// .. and in the highest one and the sum.
pub const HIGH: Around = (65_535, 4_294_967_295);

/// What is said of a list: all of a short one, the beginning of a long one.
fn describe(volts: &[u16]) -> String {
    let first = &volts[..volts.len().min(16)];
    format!("{} voltages {:?}{}", volts.len(), first, if first.len() < volts.len() { " .." } else { "" })
}

/// Compares the answers, both lent lists and what lies around them.
pub fn compare(
    volts: &[u16],
    three_len: usize,
    place: usize,
    around: Around,
    counts: &mut Counts,
) -> Result<(), String> {
    let lent = Lent::amid(around.0, place, volts);
    let mut their_lent = lent.clone();
    let mut our_three = Lent::amid(around.1, place, &vec![around.1; three_len]);
    let mut their_three = our_three.clone();
    let ours = answer(cells(volts, our_three.content_mut()).map(|_| 0));
    let theirs = library::cells(&mut their_lent, &mut their_three);
    let voltage = lent.difference(&their_lent).map(|place| format!("voltages at {}", place));
    let three = our_three.difference(&their_three).map(|place| format!("three at {}", place));
    let places: Vec<String> = [voltage, three].into_iter().flatten().collect();
    counts.add(volts, our_three.content(), ours);
    if ours == theirs && places.is_empty() {
        return Ok(());
    }
    Err(format!(
        "{}, three of {}, place {}, amid {:?}\nsecond program: {}\nlibrary: {}\nfirst difference: {}",
        describe(volts),
        three_len,
        place,
        around,
        in_words(ours),
        in_words(theirs),
        if places.is_empty() { "the answer alone".to_string() } else { places.join("; ") }
    ))
}
