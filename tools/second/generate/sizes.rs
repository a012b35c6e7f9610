//! Traces of 65,536 bytes and of sizes beside it.

use super::empty;
use super::replies::{add, reply};
use super::rules::Times;
use super::ticks::{cover, Size};
use crate::random::Random;
use crate::trace::{Hole, Trace};

/// How many 8-byte holes and 10-byte replies fill an even room of 24 bytes or more.
fn fill(random: &mut Random, room: usize) -> (usize, usize) {
    let ways: Vec<(usize, usize)> =
        (0..=room / 10).filter(|r| (room - 10 * r) % 8 == 0).map(|r| ((room - 10 * r) / 8, r)).collect();
    match random.below(3) {
        0 => ways[0],
        1 => ways[ways.len() - 1],
        _ => random.pick(&ways),
    }
}

/// A valid trace of exactly so many bytes, an even number.
fn exact(random: &mut Random, length: usize) -> Trace {
    let mut trace = empty(random, Times::Mixed, 12);
    let most = (64_000 / (8 + 4 * trace.cells as u64)).min(random.pick(&[20, 400, 4_000]));
    let size = Size { parts: 40, samples: most, unseen: 2_000, giant: false, holes: 3 };
    let mut next = cover(random, &mut trace, &size);
    add(random, &mut trace, next, 20);
    let (holes, replies) = fill(random, length - trace.encode().len());
    for _ in 0..holes {
        let last = next + random.pick(&[0, 0, 1, 2, 300]);
        trace.holes.push(Hole { first: next as u32, last: last as u32 });
        next = last + 1;
    }
    let mut at = trace.replies.last().map_or(0, |r| r.tick as u64);
    for _ in 0..replies {
        at = (at + random.pick(&[0, 0, 1, 5])).min(next.max(1) - 1);
        let reply = reply(random, &trace, at);
        trace.replies.push(reply);
    }
    trace
}

pub fn sized(random: &mut Random) -> Vec<u8> {
    let over = random.pick(&[0, 0, 0, 1, 1, 2, 64]);
    let mut bytes = exact(random, 65_536 + over / 2 * 2).encode();
    bytes.resize(65_536 + over, 0);
    bytes
}
