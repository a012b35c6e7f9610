//! Rules within their limits.

use crate::random::Random;
use crate::rules::{Quantity, Side, ROWS};
use crate::trace::Rule;

const TIMES: [u16; 13] = [0, 1, 2, 3, 63, 64, 65, 127, 128, 191, 192, 254, 255];

/// Which times the rules of a trace take.
#[derive(Clone, Copy, PartialEq)]
pub enum Times {
    UpToFive,
    Short,
    Mixed,
    Long,
}

fn time(random: &mut Random, times: Times) -> u16 {
    match times {
        Times::UpToFive => random.within(1, 5) as u16,
        Times::Short => random.within(0, 4) as u16,
        Times::Mixed if random.once_in(4) => random.within(1, 255) as u16,
        Times::Mixed => random.pick(&TIMES),
        Times::Long => random.pick(&TIMES[4..]),
    }
}

/// A range of everyday values inside the quantity's range.
fn everyday(quantity: Quantity, cells: i64) -> (i64, i64) {
    match quantity {
        Quantity::HighestVolt | Quantity::LowestVolt => (2_500, 4_500),
        Quantity::SumVolt => (2_500 * cells, 4_500 * cells),
        Quantity::SpreadVolt => (0, 300),
        Quantity::Current => (-6_000, 6_000),
        Quantity::HighestTemp | Quantity::LowestTemp | Quantity::Board => (-200, 800),
    }
}

/// Numbers of an enabled rule within its limits.
pub fn numbers(random: &mut Random, no: usize, cells: u8, time: u16) -> Rule {
    let row = &ROWS[no];
    let (lo, hi) = row.range(cells);
    let (from, to) = match (row.latches, row.side) {
        (false, _) => (lo + 1, hi - 1),
        (true, Side::High) => (lo, hi - 1),
        (true, Side::Low) => (lo + 1, hi),
    };
    let (first, last) = match random.below(4) {
        0 | 1 => everyday(row.quantity, cells as i64),
        _ => (from, to),
    };
    let (first, last) = (first.max(from), last.min(to));
    let one = random.near_ends(first, last);
    let other = if random.once_in(5) { one } else { random.near_ends(first, last) };
    let (threshold, recovery) = match (row.latches, row.side) {
        (true, _) => (one, 0),
        (false, Side::High) => (one.max(other), one.min(other)),
        (false, Side::Low) => (one.min(other), one.max(other)),
    };
    Rule { threshold: threshold as i32, recovery: recovery as i32, time }
}

fn switched_off(random: &mut Random) -> Rule {
    if random.once_in(2) {
        return Rule { threshold: 0, recovery: 0, time: 0 };
    }
    Rule { threshold: random.next() as i32, recovery: random.next() as i32, time: 0 }
}

/// Sixteen rules: all of them enabled, some of them or one.
pub fn rules(random: &mut Random, cells: u8, times: Times) -> Vec<Rule> {
    let share = random.below(4);
    let chosen = random.below(16) as usize;
    let mut out = Vec::new();
    for no in 0..16 {
        let enabled = match share {
            0 => no == chosen,
            1 => random.once_in(2),
            _ => true,
        };
        let time = time(random, times);
        let on = enabled && time != 0;
        out.push(if on { numbers(random, no, cells, time) } else { switched_off(random) });
    }
    out
}
