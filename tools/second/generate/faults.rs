//! A valid trace with one or more faults put in, each after a refusal number.

use super::ticks::LAST_TICK;
use crate::random::Random;
use crate::rules::{Side, ROWS};
use crate::trace::{Hole, Reply, Rule, Sample, Trace, RULE_OFF};

pub struct Draft {
    trace: Trace,
    counts: [Option<u16>; 4],
    cut: Option<usize>,
    tail: usize,
}

impl Draft {
    pub fn new(trace: Trace) -> Draft {
        Draft { trace, counts: [None; 4], cut: None, tail: 0 }
    }

    pub fn encode(&self) -> Vec<u8> {
        let t = &self.trace;
        let lengths = [t.rules.len(), t.holes.len(), t.replies.len(), t.samples.len()];
        let mut counts = [0; 4];
        for i in 0..4 {
            counts[i] = self.counts[i].unwrap_or(lengths[i] as u16);
        }
        let mut bytes = t.encode_with(counts);
        if let Some(length) = self.cut {
            bytes.truncate(length);
        }
        bytes.resize(bytes.len() + self.tail, 0);
        bytes
    }

    pub fn spoil(&mut self, random: &mut Random, number: u32) {
        match number {
            1 => self.cut = Some(random.below(4) as usize),
            2 => self.trace.version = random.pick(&[0, 2, 16, 129, 255]),
            3 => self.trace.cells = random.pick(&[0, 1, 2, 13, 14, 131, 255]),
            4 => self.trace.idle = random.pick(&[32_767, 32_768, 40_000, 65_535]),
            5 => self.run_past_end(random),
            6 => self.wrong_rule_count(random),
            7 => self.spoil_rule(random),
            8 => self.spoil_hole(random),
            9 => self.spoil_coverage(random),
            10 => self.spoil_reply(random),
            11 => self.tail = random.pick(&[1, 2, 8, 20]),
            _ => self.tail = 65_537 + random.below(3) as usize,
        }
    }

    fn run_past_end(&mut self, random: &mut Random) {
        let length = self.trace.encode().len() as i64;
        match random.below(4) {
            0 => self.cut = Some(random.within(4, length - 1) as usize),
            1 => self.cut = Some(random.pick(&[4, 5, 6, 165, 166, 167, 168])),
            2 => self.cut = Some(length as usize - 1),
            _ => {
                let section = random.pick(&[1, 2, 3]);
                let more = random.pick(&[1, 2, 255, 256, 60_000]);
                let t = &self.trace;
                let lengths = [t.rules.len(), t.holes.len(), t.replies.len(), t.samples.len()];
                self.counts[section] = Some(lengths[section] as u16 + more);
            }
        }
    }

    fn wrong_rule_count(&mut self, random: &mut Random) {
        let count = random.pick(&[0, 1, 15, 17, 272, 4_096, 65_535]);
        if random.once_in(2) && count < 20 {
            self.trace.rules.resize(count as usize, RULE_OFF);
        } else {
            self.counts[0] = Some(count);
        }
    }

    fn spoil_rule(&mut self, random: &mut Random) {
        let no = random.below(16) as usize;
        if no >= self.trace.rules.len() {
            return;
        }
        let cells = self.trace.cells;
        let mut rule = super::rules::numbers(random, no, cells.clamp(3, 12), 1);
        rule.time = random.pick(&[1, 2, 255]);
        match random.below(3) {
            0 => rule.time = random.pick(&[256, 257, 512, 32_768, 65_535]),
            1 => spoil_numbers(random, no, cells, &mut rule),
            _ => {
                rule.threshold = random.next() as i32;
                rule.recovery = random.pick(&[i32::MIN, i32::MAX, -1, 1, 4_000]);
            }
        }
        self.trace.rules[no] = rule;
    }

    fn spoil_hole(&mut self, random: &mut Random) {
        let holes = &mut self.trace.holes;
        if holes.is_empty() {
            holes.push(Hole { first: 0, last: 3 });
        }
        let i = random.below(holes.len() as u64) as usize;
        let hole = holes[i];
        match random.below(5) {
            0 => holes[i] = Hole { first: hole.last, last: hole.first.wrapping_sub(1) },
            1 => holes[i].first = hole.last.wrapping_add(1),
            2 => holes[i].last = u32::MAX,
            3 => holes.insert(i, hole),
            _ => holes.insert(i, Hole { first: hole.first, last: hole.first.max(1) - 1 }),
        }
        let other = random.below(holes.len() as u64) as usize;
        if random.once_in(3) {
            holes.swap(i, other);
        }
    }

    fn spoil_coverage(&mut self, random: &mut Random) {
        let samples = &mut self.trace.samples;
        if samples.is_empty() || random.once_in(5) {
            return self.reach_end(random);
        }
        let i = random.below(samples.len() as u64) as usize;
        let sample = samples[i].clone();
        match random.below(6) {
            0 => drop(samples.remove(i)),
            1 => samples.insert(i, sample),
            2 => samples[i].tick = sample.tick.wrapping_add(1),
            3 => samples[i].tick = sample.tick.wrapping_sub(1),
            4 => samples[i].tick = random.next() as u32,
            _ => {
                let tick = self.trace.holes.first().map_or(sample.tick, |hole| hole.first);
                samples.insert(i, Sample { tick, ..sample });
            }
        }
    }

    /// A hole to the last tick, and a sample after it at a tick that no trace covers.
    fn reach_end(&mut self, random: &mut Random) {
        let trace = &mut self.trace;
        let after_samples = trace.samples.last().map_or(0, |s| s.tick.saturating_add(1));
        let after_holes = trace.holes.last().map_or(0, |h| h.last.saturating_add(1));
        let next = after_samples.max(after_holes);
        if (next as u64) <= LAST_TICK {
            trace.holes.push(Hole { first: next, last: LAST_TICK as u32 });
        }
        let cells = trace.cells as usize;
        let tick = random.pick(&[u32::MAX, u32::MAX, 0]);
        trace.samples.push(Sample { tick, current: 0, board: 0, volts: vec![0; cells], temps: vec![0; cells] });
    }

    fn spoil_reply(&mut self, random: &mut Random) {
        let after_holes = self.trace.holes.last().map_or(0, |h| h.last.wrapping_add(1));
        let ticks = after_holes.wrapping_add(self.trace.samples.len() as u32);
        let replies = &mut self.trace.replies;
        let bus = [0x16, 0x09, 0x17, 0, 0, 0];
        match random.below(4) {
            0 => replies.push(Reply { tick: ticks, bus }),
            1 => replies.push(Reply { tick: u32::MAX - random.below(2) as u32, bus }),
            2 => {
                replies.push(Reply { tick: 1, bus });
                replies.push(Reply { tick: 0, bus });
            }
            _ => {
                let at = random.below(replies.len() as u64 + 1) as usize;
                replies.insert(at, Reply { tick: random.next() as u32, bus });
            }
        }
    }
}

/// Puts one number of a rule at or beside a limit that it must not reach.
fn spoil_numbers(random: &mut Random, no: usize, cells: u8, rule: &mut Rule) {
    let (lo, hi) = ROWS[no].range(cells);
    let (lo, hi) = (lo as i32, hi as i32);
    let step = random.below(2) as i32;
    match (random.below(4), ROWS[no].side) {
        (0, Side::High) => rule.threshold = hi + step,
        (0, Side::Low) => rule.threshold = lo - step,
        (1, Side::High) => rule.recovery = lo - step,
        (1, Side::Low) => rule.recovery = hi + step,
        (2, Side::High) => rule.recovery = rule.threshold.saturating_add(1),
        (2, Side::Low) => rule.recovery = rule.threshold.saturating_sub(1),
        (_, Side::High) => rule.threshold = lo - step,
        (_, Side::Low) => rule.threshold = hi + step,
    }
}
