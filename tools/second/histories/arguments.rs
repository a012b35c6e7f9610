//! Arguments of the recorder's calls from a seed.

use crate::random::Random;
use crate::recorder::sample_bytes;
use crate::trace::Sample;

/// The last tick that a sample may have.
pub const LAST_TICK: u64 = 4_294_967_294;

/// Lengths of a record that is none.
pub const NO_RECORD: [usize; 6] = [0, 1, 3, 5, 7, 8];

pub fn sample(random: &mut Random, cells: usize, tick: u32) -> Sample {
    let readings = random.next();
    Sample {
        tick,
        current: readings as i16,
        board: (readings >> 16) as i16,
        volts: (0..cells).map(|_| random.next() as u16).collect(),
        temps: (0..cells).map(|_| random.next() as i16).collect(),
    }
}

/// A length that is not `cells`.
fn other_length(random: &mut Random, cells: usize) -> usize {
    random.pick(&[0, cells - 1, cells + 1, cells + 1, cells + 256])
}

/// Makes one of the sample's lists, or both, too short or too long.
pub fn spoil_lists(random: &mut Random, sample: &mut Sample) {
    let cells = sample.volts.len();
    let which = random.below(3);
    if which != 0 {
        sample.volts.resize(other_length(random, cells), 3_700);
    }
    if which != 1 {
        sample.temps.resize(other_length(random, cells), -40);
    }
}

/// The length of a buffer for so many stored samples: none, some or all of them fit, to the byte or not.
pub fn buffer_length(random: &mut Random, cells: u32, stored: u32) -> usize {
    let size = sample_bytes(cells);
    let all = stored as usize * size;
    match random.below(9) {
        0 => 0,
        1 => size - 1,
        2 => size,
        3 => size + 1,
        4 => all,
        5 => all + 1,
        6 => all.max(1) - 1,
        7 => all + random.pick(&[size, 70_000]),
        _ => random.below(all as u64 + 1) as usize,
    }
}

pub fn bytes(random: &mut Random, length: usize) -> Vec<u8> {
    (0..length).map(|_| random.next() as u8).collect()
}
