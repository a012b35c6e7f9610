//! Replies at every sort of tick, right and wrong.

use crate::random::Random;
use crate::reply::{crc8, seal};
use crate::rules::sum_of_cells;
use crate::trace::{Reply, Trace};

fn tick(random: &mut Random, trace: &Trace, ticks: u64) -> u64 {
    let last = ticks - 1;
    let near_hole = |random: &mut Random| {
        let holes = &trace.holes;
        let hole = holes[random.below(holes.len() as u64) as usize];
        let (first, end) = (hole.first as u64, hole.last as u64);
        match random.below(6) {
            0 => first,
            1 => end,
            2 => first.saturating_sub(1),
            3 => end + 1,
            4 => first + random.below(6),
            _ => random.within(hole.first as i64, hole.last as i64) as u64,
        }
    };
    let at = match random.below(8) {
        0 => 0,
        1 => last,
        2..=4 if !trace.holes.is_empty() => near_hole(random),
        5 => random.below(ticks),
        _ if !trace.samples.is_empty() => {
            let samples = &trace.samples;
            samples[random.below(samples.len() as u64) as usize].tick as u64
        }
        _ => random.below(ticks),
    };
    at.min(last)
}

fn voltage(random: &mut Random, sum: u32) -> u16 {
    let off = random.pick(&[0, 0, 0, 1, -1, 256, 65_536]);
    (sum as i64 + off) as u16
}

fn status_word(random: &mut Random) -> u16 {
    let word = match random.below(4) {
        0 => 0,
        1 => 0xFFFF,
        _ => random.next() as u16,
    };
    let bits = random.pick(&[0, 0x4000, 0x1000, 0x0800, 0x5000, 0x1800, 0x4800, 0x5800]);
    if random.once_in(4) {
        word
    } else {
        word & !0x5800 | bits
    }
}

/// Six bytes with a wrong address, a wrong PEC, or both.
fn spoil(random: &mut Random, mut bus: [u8; 6]) -> [u8; 6] {
    let place = random.pick(&[0, 2, 5]);
    bus[place] ^= 1 << random.below(8);
    if place != 5 && random.once_in(2) {
        bus[5] = crc8(&bus[..5]);
    }
    if random.once_in(4) {
        bus[random.below(6) as usize] = random.next() as u8;
    }
    bus
}

fn bus(random: &mut Random, trace: &Trace, tick: u64) -> [u8; 6] {
    let sample = trace.samples.binary_search_by_key(&(tick as u32), |s| s.tick).ok().map(|i| &trace.samples[i]);
    let sum = sample.map_or(random.next() as u32, sum_of_cells);
    let current = sample.map_or(random.next() as i16, |s| s.current);
    let bus = match random.below(8) {
        0 => seal(random.next() as u8, random.next() as u16),
        1 => seal(random.pick(&[0x08, 0x0B, 0x15, 0x17, 0x0F, 0x19, 0x96]), random.next() as u16),
        2 => seal(0x09, voltage(random, sum)),
        3 => seal(0x0A, (current as i64 + random.pick(&[0, 0, 1, -1, 256])) as u16),
        4 => seal(0x0A, current.wrapping_neg() as u16),
        _ => seal(0x16, status_word(random)),
    };
    if random.once_in(5) {
        spoil(random, bus)
    } else {
        bus
    }
}

pub fn reply(random: &mut Random, trace: &Trace, tick: u64) -> Reply {
    Reply { tick: tick as u32, bus: bus(random, trace, tick) }
}

/// Gives a trace that covers some ticks its replies, in order of tick.
pub fn add(random: &mut Random, trace: &mut Trace, ticks: u64, most: u64) {
    if ticks == 0 {
        return;
    }
    let mut at: Vec<u64> = Vec::new();
    for _ in 0..random.below(most + 1) {
        let again = !at.is_empty() && random.once_in(5);
        at.push(if again { at[at.len() - 1] } else { tick(random, trace, ticks) });
    }
    at.sort_unstable();
    let replies: Vec<Reply> = at.iter().map(|tick| reply(random, trace, *tick)).collect();
    trace.replies = replies;
}
