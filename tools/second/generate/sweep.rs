//! Traces that are the same in every run: limits of every rule, every head byte, every truncation,
//! every command and packet error code, every rule alone.

use crate::candidates::sample_with;
use crate::random::Random;
use crate::reply::seal;
use crate::rules::{Side, ROWS};
use crate::trace::{Hole, Reply, Rule, Sample, Trace, RULE_OFF};

fn plain(cells: u8) -> Trace {
    let rules = vec![RULE_OFF; 16];
    Trace { version: 1, cells, idle: 0, rules, holes: vec![], replies: vec![], samples: vec![] }
}

fn one_sample(cells: u8) -> Trace {
    let width = cells as usize;
    let sample = Sample { tick: 0, current: -5, board: 250, volts: vec![4_000; width], temps: vec![250; width] };
    Trace { samples: vec![sample], ..plain(cells) }
}

fn with_rule(cells: u8, no: usize, rule: Rule) -> Vec<u8> {
    let mut trace = plain(cells);
    trace.rules[no] = rule;
    trace.encode()
}

/// Every rule with both numbers at and beside the ends of its range.
fn limits(out: &mut Vec<Vec<u8>>) {
    for cells in [3, 12] {
        for (no, row) in ROWS.iter().enumerate() {
            let (lo, hi) = row.range(cells);
            let ends = [lo - 1, lo, lo + 1, lo + 2, 0, hi - 2, hi - 1, hi, hi + 1];
            for threshold in ends.iter().map(|e| *e as i32) {
                for recovery in ends.iter().map(|e| *e as i32) {
                    out.push(with_rule(cells, no, Rule { threshold, recovery, time: 1 }));
                }
            }
        }
    }
}

fn times(out: &mut Vec<Vec<u8>>) {
    for no in 0..16 {
        for time in [0, 1, 2, 127, 128, 254, 255, 256, 257, 511, 32_768, 65_281, 65_535] {
            let recovery = if no < 10 { 100 } else { 0 };
            out.push(with_rule(3, no, Rule { threshold: 100, recovery, time }));
        }
    }
}

fn heads(out: &mut Vec<Vec<u8>>) {
    for byte in 0..=255 {
        out.push(Trace { version: byte, ..plain(3) }.encode());
        out.push(Trace { cells: byte, ..one_sample(byte) }.encode());
    }
    for idle in [0, 1, 255, 256, 32_765, 32_766, 32_767, 32_768, 65_535] {
        out.push(Trace { idle, ..plain(3) }.encode());
    }
}

fn truncations(out: &mut Vec<Vec<u8>>) {
    let mut trace = one_sample(3);
    trace.holes.push(Hole { first: 1, last: 4 });
    trace.replies.push(Reply { tick: 0, bus: seal(0x09, 12_000) });
    trace.replies.push(Reply { tick: 3, bus: seal(0x16, 0) });
    let bytes = trace.encode();
    for length in 0..bytes.len() {
        out.push(bytes[..length].to_vec());
        out.push([&bytes[..length], &[0], &bytes[length..]].concat());
    }
}

fn replies(out: &mut Vec<Vec<u8>>) {
    for (command, word) in [(0x09, 12_000), (0x0A, 65_531), (0x16, 0), (0x16, 0xFFFF)] {
        let sealed = seal(command, word);
        for place in 0..6 {
            let mut trace = one_sample(3);
            for byte in 0..=255 {
                let mut bus = sealed;
                bus[place] = byte;
                trace.replies.push(Reply { tick: 0, bus });
                trace.replies.push(Reply { tick: 0, bus: seal(byte, word) });
            }
            out.push(trace.encode());
        }
    }
}

/// A status word for each choice of the three bits.
fn status_replies(tick: u32) -> Vec<Reply> {
    let words = [0, 0x4000, 0x1000, 0x0800, 0x5000, 0x4800, 0x1800, 0x5800];
    words.iter().map(|word| Reply { tick, bus: seal(0x16, *word) }).collect()
}

/// Each rule alone, held and unknown, in ticks that begin with a sample or a hole.
fn single_rules(out: &mut Vec<Vec<u8>>) {
    for (no, row) in ROWS.iter().enumerate() {
        let (value, recovery) = if row.side == Side::High { (150, 50) } else { (50, 150) };
        let recovery = if row.latches { 0 } else { recovery };
        let current = if matches!(no, 6 | 13) { 200 } else { -200 };
        let meets = sample_with(no, value, current, 3, &mut Random::new(no as u64));
        for unseen in 0..8 {
            let mut trace = plain(3);
            trace.idle = 10;
            trace.rules[no] = Rule { threshold: 100, recovery, time: 1 };
            for tick in 0..3 {
                if unseen >> tick & 1 == 1 {
                    trace.holes.push(Hole { first: tick, last: tick });
                } else {
                    trace.samples.push(Sample { tick, ..meets.clone() });
                }
                trace.replies.extend(status_replies(tick));
            }
            out.push(trace.encode());
        }
    }
}

/// As many records as the counts can say: far over what the program reads, for the library alone.
fn largest() -> Vec<u8> {
    let mut trace = plain(3);
    trace.rules[5] = Rule { threshold: -32_767, recovery: 0, time: 255 };
    for i in 0..65_535 {
        let tick = 2 * i;
        trace.holes.push(Hole { first: tick + 1, last: tick + 1 });
        trace.replies.push(Reply { tick, bus: seal(0x0A, 0x8000) });
        trace.samples.push(Sample { tick, current: -32_768, board: 0, volts: vec![65_535; 3], temps: vec![0; 3] });
    }
    trace.encode()
}

pub fn sweep() -> Vec<Vec<u8>> {
    let mut out = Vec::new();
    limits(&mut out);
    times(&mut out);
    heads(&mut out);
    truncations(&mut out);
    replies(&mut out);
    single_rules(&mut out);
    out.push(largest());
    out
}
