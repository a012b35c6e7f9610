//! Lists of voltages: those of every run, and those from a seed.

use crate::random::Random;

/// The ends of a voltage's range and of its halves, and what lies beside them.
const ENDS: [u16; 6] = [0, 1, 32_767, 32_768, 65_534, 65_535];

/// Lengths whose low 8 or 16 bits are 3 to 12, and some beside them.
const LONG: [usize; 20] = [
    255, 256, 257, 258, 259, 260, 267, 268, 269, 511, 512, 515, 524, 65_535, 65_536, 65_538, 65_539, 65_541, 65_548,
    131_075,
];

/// From 3,700 mV on, each 1 mV above the one before it.
pub fn rising(length: usize) -> Vec<u16> {
    (0..length).map(|i| (3_700 + i) as u16).collect()
}

fn falling(length: usize) -> Vec<u16> {
    rising(length).into_iter().rev().collect()
}

/// From 0 to 65,535 in equal steps, or nearly so.
fn steep(length: usize) -> Vec<u16> {
    let last = length.max(2) - 1;
    (0..length).map(|i| (65_535 * i / last) as u16).collect()
}

/// All equal, rising and falling.
fn plain(length: usize, out: &mut Vec<Vec<u16>>) {
    out.extend(ENDS.iter().map(|volt| vec![*volt; length]));
    out.extend([rising(length), falling(length), steep(length)]);
    out.push(steep(length).into_iter().rev().collect());
}

/// One that is higher or lower than the others, at each place.
fn one_apart(length: usize, out: &mut Vec<Vec<u16>>) {
    let pairs = [(0, 65_535), (0, 1), (32_767, 32_768), (255, 256), (65_534, 65_535)];
    for (lower, higher) in pairs {
        for place in 0..length {
            for (one, others) in [(lower, higher), (higher, lower)] {
                let mut volts = vec![others; length];
                volts[place] = one;
                out.push(volts);
            }
        }
    }
}

/// The highest and the lowest at each two places.
fn two_apart(length: usize, out: &mut Vec<Vec<u16>>) {
    for (lowest, others, highest) in [(0, 32_768, 65_535), (1, 32_767, 65_534), (4_199, 4_200, 4_201)] {
        for low in 0..length {
            for high in (0..length).filter(|high| *high != low) {
                let mut volts = vec![others; length];
                volts[low] = lowest;
                volts[high] = highest;
                out.push(volts);
            }
        }
    }
}

/// Every list of three of the ends.
fn three_ends(out: &mut Vec<Vec<u16>>) {
    for first in ENDS {
        for second in ENDS {
            out.extend(ENDS.iter().map(|third| vec![first, second, *third]));
        }
    }
}

/// The lists of every run.
pub fn fixed() -> Vec<Vec<u16>> {
    let mut out = Vec::new();
    for length in 0..=16 {
        plain(length, &mut out);
    }
    for length in 3..=12 {
        one_apart(length, &mut out);
        two_apart(length, &mut out);
    }
    three_ends(&mut out);
    out.extend(LONG.iter().map(|length| rising(*length)));
    out
}

/// A list from a seed, of 3 to 12 voltages; once in eight of any length below 40.
pub fn from_seed(random: &mut Random) -> Vec<u16> {
    let length = if random.once_in(8) { random.below(40) } else { random.within(3, 12) as u64 };
    let kind = random.below(4);
    let middle = random.within(10, 65_525);
    let volt = |random: &mut Random| match kind {
        0 => random.next() as u16,
        1 => random.pick(&ENDS),
        2 => random.near_ends(0, 65_535) as u16,
        _ => random.within(middle - 10, middle + 10) as u16,
    };
    (0..length).map(|_| volt(random)).collect()
}
