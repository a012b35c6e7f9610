//! Concrete samples for a hole's tick: one for each outcome of a rule's two tests.

use crate::random::Random;
use crate::slow::tests;
use crate::trace::{Sample, Trace};

fn range(no: usize, cells: usize) -> (i64, i64) {
    match no {
        0 | 1 | 10 | 15 => (0, 65_535),
        2 | 3 => (0, 65_535 * cells as i64),
        _ => (-32_768, 32_767),
    }
}

/// Values at and beside the rule's numbers, at the ends of the range and inside it.
fn values(trace: &Trace, no: usize, random: &mut Random) -> Vec<i64> {
    let (lo, hi) = range(no, trace.cells as usize);
    let threshold = i64::from(trace.rules[no].threshold);
    let recovery = i64::from(trace.rules[no].recovery);
    let mut list = vec![lo, hi, random.within(lo, hi)];
    for number in [threshold, recovery] {
        list.extend([number - 1, number, number + 1]);
    }
    list.retain(|value| lo <= *value && *value <= hi);
    list
}

/// Cells whose sum is `sum`.
pub fn cells_of_sum(cells: usize, sum: i64, random: &mut Random) -> Vec<u16> {
    let mut left = sum;
    let mut volts = vec![0u16; cells];
    let start = random.below(cells as u64) as usize;
    for i in 0..cells {
        let others = (cells - 1 - i) as i64;
        let least = (left - 65_535 * others).max(0);
        let volt = random.within(least, left.min(65_535));
        volts[(start + i) % cells] = volt as u16;
        left -= volt;
    }
    volts
}

/// Cells of which the highest is `high` and the lowest is `low`.
pub fn cells_between(cells: usize, low: i64, high: i64, random: &mut Random) -> Vec<i64> {
    let mut list: Vec<i64> = (0..cells).map(|_| random.within(low, high)).collect();
    let start = random.below(cells as u64) as usize;
    list[start] = low;
    list[(start + 1) % cells] = high;
    list
}

/// A sample in which the rule's quantity has this value.
pub fn sample_with(no: usize, value: i64, current: i16, cells: usize, random: &mut Random) -> Sample {
    let (volt_low, volt_high) = match no {
        0 | 10 => (random.within(0, value), value),
        1 => (value, random.within(value, 65_535)),
        15 => {
            let low = random.within(0, 65_535 - value);
            (low, low + value)
        }
        _ => (0, 65_535),
    };
    let (temp_low, temp_high) = match no {
        6 | 7 | 13 | 14 => (random.within(-32_768, value), value),
        9 => (value, random.within(value, 32_767)),
        _ => (-32_768, 32_767),
    };
    let between = cells_between(cells, volt_low, volt_high, random);
    let volts = match no {
        2 | 3 => cells_of_sum(cells, value, random),
        _ => between.iter().map(|v| *v as u16).collect(),
    };
    let temps = cells_between(cells, temp_low, temp_high, random);
    Sample {
        tick: 0,
        current: if matches!(no, 4 | 5 | 11 | 12) { value as i16 } else { current },
        board: if no == 8 { value as i16 } else { random.next() as i16 },
        volts,
        temps: temps.iter().map(|t| *t as i16).collect(),
    }
}

/// One sample for each pair of answers that the two tests can give.
pub fn candidates(trace: &Trace, no: usize, random: &mut Random) -> Vec<Sample> {
    let idle = trace.idle as i16;
    let mut all = Vec::new();
    for value in values(trace, no, random) {
        for current in [0, idle, -idle, idle + 1, -idle - 1, 32_767, -32_768] {
            all.push(sample_with(no, value, current, trace.cells as usize, random));
        }
    }
    let mut chosen = Vec::new();
    for outcome in [(false, false), (false, true), (true, false), (true, true)] {
        let alike: Vec<&Sample> = all.iter().filter(|s| tests(trace, no, s) == outcome).collect();
        if !alike.is_empty() {
            chosen.push(random.pick(&alike).clone());
        }
    }
    chosen
}
