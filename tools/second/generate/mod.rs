//! Traces from a seed: valid ones, faulty ones and bytes at random.

mod faults;
mod replies;
mod rules;
mod sizes;
pub mod sweep;
mod ticks;

use crate::random::Random;
use crate::trace::{Trace, RULE_OFF};
use faults::Draft;
use rules::Times;
use ticks::Size;

fn empty(random: &mut Random, times: Times, most_cells: i64) -> Trace {
    let cells = random.near_ends(3, most_cells) as u8;
    empty_of(random, times, cells)
}

fn empty_of(random: &mut Random, times: Times, cells: u8) -> Trace {
    let idle = match random.below(3) {
        0 => random.within(0, 300),
        _ => random.near_ends(0, 32_766),
    } as u16;
    let rules = rules::rules(random, cells, times);
    Trace { version: 1, cells, idle, rules, holes: vec![], replies: vec![], samples: vec![] }
}

/// A valid head and rules, all of them off now and then, and no records.
pub fn head(random: &mut Random, cells: u8) -> Trace {
    let times = random.pick(&[Times::Short, Times::Mixed, Times::Long]);
    let mut trace = empty_of(random, times, cells);
    if random.once_in(3) {
        trace.rules = vec![RULE_OFF; 16];
    }
    trace
}

/// A valid trace small enough for the slow form.
pub fn small(random: &mut Random) -> Trace {
    let mut trace = empty(random, Times::UpToFive, 4);
    let unseen = random.pick(&[2, 3, 4, 4, 5, 5, 6, 6, 7, 8]);
    let size = Size { parts: random.within(1, 9) as u64, samples: 14, unseen, giant: false, holes: 2 };
    let ticks = ticks::cover(random, &mut trace, &size);
    replies::add(random, &mut trace, ticks, 12);
    trace
}

/// A valid trace with one rule of a long time and few unseen ticks, for the slow form.
pub fn long(random: &mut Random) -> Trace {
    let mut trace = empty(random, Times::Long, 4);
    let no = random.below(16) as usize;
    let time = trace.rules[no].time.max(63);
    trace.rules = vec![RULE_OFF; 16];
    trace.rules[no] = rules::numbers(random, no, trace.cells, time);
    let unseen = random.pick(&[1, 2, 3, 4]);
    let size = Size { parts: random.within(2, 9) as u64, samples: 1_200, unseen, giant: false, holes: 4 };
    let ticks = ticks::cover(random, &mut trace, &size);
    replies::add(random, &mut trace, ticks, 12);
    trace
}

/// A valid trace within 65,536 bytes.
fn valid(random: &mut Random) -> Trace {
    let times = random.pick(&[Times::Short, Times::Short, Times::Mixed, Times::Long]);
    let mut trace = empty(random, times, 12);
    let most = 64_000 / (8 + 4 * trace.cells as u64);
    let samples = match times {
        Times::Short => random.pick(&[0, 1, 5, 30, 60]),
        _ => random.pick(&[30, 600, 600, 1_500]),
    };
    let size = Size {
        parts: random.within(0, 10) as u64,
        samples: most.min(samples),
        unseen: u64::MAX,
        giant: random.once_in(4),
        holes: random.pick(&[0, 2, 3, 3, 6]),
    };
    let ticks = ticks::cover(random, &mut trace, &size);
    replies::add(random, &mut trace, ticks, 20);
    trace
}

/// A short valid trace, which faults and changed bytes start from.
fn short(random: &mut Random) -> Trace {
    let times = random.pick(&[Times::Short, Times::Mixed]);
    let mut trace = empty(random, times, 12);
    let size = Size {
        parts: random.within(0, 8) as u64,
        samples: 12,
        unseen: u64::MAX,
        giant: random.once_in(4),
        holes: random.pick(&[0, 2, 3]),
    };
    let ticks = ticks::cover(random, &mut trace, &size);
    replies::add(random, &mut trace, ticks, 6);
    trace
}

fn faulty(random: &mut Random, faults: u64) -> Vec<u8> {
    let mut draft = Draft::new(short(random));
    for _ in 0..faults {
        let number = random.pick(&[1, 2, 3, 4, 5, 6, 7, 8, 9, 10, 11, 14]);
        draft.spoil(random, number);
    }
    draft.encode()
}

/// A place among the bytes, half of the time before the samples.
fn place(random: &mut Random, bytes: &[u8]) -> usize {
    let most = if random.once_in(2) { bytes.len().min(260) } else { bytes.len() };
    random.below(most.max(1) as u64) as usize
}

fn mutated(random: &mut Random) -> Vec<u8> {
    let mut bytes = short(random).encode();
    for _ in 0..random.within(1, 4) {
        let at = place(random, &bytes);
        match random.below(6) {
            0 => bytes[at] ^= 1 << random.below(8),
            1 => bytes[at] = random.next() as u8,
            2 => bytes[at] = random.pick(&[0, 1, 0x7F, 0x80, 0xFF]),
            3 => bytes[at] = bytes[at].wrapping_add(random.pick(&[1, 0xFF])),
            4 => bytes.insert(at, random.next() as u8),
            _ => drop(bytes.remove(at)),
        }
    }
    bytes
}

fn anything(random: &mut Random) -> Vec<u8> {
    let length = random.pick(&[0, 3, 4, 5, 6, 8, 40, 172, 400]);
    let mut bytes: Vec<u8> = (0..random.below(length + 1)).map(|_| random.next() as u8).collect();
    let head = [1, 3, 0, 0, 16, 0];
    let known = random.below(7) as usize;
    for (byte, expected) in bytes.iter_mut().zip(&head[..known]) {
        *byte = *expected;
    }
    bytes
}

fn truncated(random: &mut Random) -> Vec<u8> {
    let mut bytes = short(random).encode();
    let length = place(random, &bytes);
    bytes.truncate(length);
    bytes
}

/// The bytes of one trace, of any kind.
pub fn bytes(random: &mut Random) -> Vec<u8> {
    match random.below(50) {
        0..=23 => valid(random).encode(),
        24..=32 => faulty(random, 1),
        33..=40 => faulty(random, 2),
        41..=44 => mutated(random),
        45 => anything(random),
        46..=48 => truncated(random),
        _ => sizes::sized(random),
    }
}
