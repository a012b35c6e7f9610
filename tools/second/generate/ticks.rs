//! Samples and holes, tick after tick: runs of samples that aim at a rule's numbers, and holes.

use crate::candidates::sample_with;
use crate::random::Random;
use crate::rules::{Side, ROWS};
use crate::trace::{Hole, Sample, Trace};

/// The last tick that a trace may cover.
pub const LAST_TICK: u64 = 4_294_967_294;

/// Where a quantity goes among its rule's numbers.
#[derive(Clone, Copy, PartialEq)]
enum Aim {
    Beyond,
    Between,
    Recovered,
    Beside,
    Anywhere,
}

const AIMS: [Aim; 8] =
    [Aim::Beyond, Aim::Beyond, Aim::Beyond, Aim::Beyond, Aim::Between, Aim::Recovered, Aim::Beside, Aim::Anywhere];

/// The rules that a run of samples aims at, one for each kind of reading.
struct Target {
    volts: (usize, Aim),
    temps: (usize, Aim),
    board: Aim,
    current: (usize, Aim),
    /// The current is one that the temperature rule asks for.
    qualify: bool,
    /// One reading in so many is aimed otherwise.
    astray: u64,
}

/// One of the rules, an enabled one if there is any.
fn pick_rule(random: &mut Random, trace: &Trace, rules: &[usize]) -> usize {
    let enabled: Vec<usize> = rules.iter().copied().filter(|no| trace.rules[*no].time != 0).collect();
    random.pick(if enabled.is_empty() { rules } else { &enabled })
}

fn target(random: &mut Random, trace: &Trace) -> Target {
    Target {
        volts: (pick_rule(random, trace, &[0, 1, 2, 3, 10, 15]), random.pick(&AIMS)),
        temps: (pick_rule(random, trace, &[6, 7, 9, 13, 14]), random.pick(&AIMS)),
        board: random.pick(&AIMS),
        current: (pick_rule(random, trace, &[4, 5, 11, 12]), random.pick(&AIMS)),
        qualify: random.once_in(2),
        astray: random.pick(&[8, 40, 400, 4_000]),
    }
}

/// A value of the rule's quantity that lies as aimed, as far as the rule's numbers allow.
fn value(random: &mut Random, trace: &Trace, no: usize, aim: Aim) -> i64 {
    let (lo, hi) = ROWS[no].range(trace.cells);
    let threshold = (trace.rules[no].threshold as i64).clamp(lo, hi);
    let recovery = (trace.rules[no].recovery as i64).clamp(lo, hi);
    let high = ROWS[no].side == Side::High;
    let (first, last) = match (aim, high) {
        (Aim::Beyond, true) => (threshold + 1, hi),
        (Aim::Beyond, false) => (lo, threshold - 1),
        (Aim::Between, true) => (recovery, threshold),
        (Aim::Between, false) => (threshold, recovery),
        (Aim::Recovered, true) => (lo, recovery - 1),
        (Aim::Recovered, false) => (recovery + 1, hi),
        (Aim::Beside, _) => {
            let number = random.pick(&[threshold, recovery]);
            (number - 1, number + 1)
        }
        (Aim::Anywhere, _) => (lo, hi),
    };
    let (first, last) = (first.max(lo), last.min(hi));
    if first <= last {
        random.near_ends(first, last)
    } else {
        random.near_ends(lo, hi)
    }
}

/// A current on the side that the temperature rule asks for, or at its edge.
fn qualifying(random: &mut Random, no: usize, idle: i64, astray: u64) -> i16 {
    let size = if random.once_in(astray) { random.near_ends(0, idle) } else { random.near_ends(idle + 1, 32_767) };
    let charging = matches!(no, 6 | 13);
    if charging != random.once_in(2 * astray) {
        size as i16
    } else {
        -size as i16
    }
}

fn sample(random: &mut Random, trace: &Trace, target: &Target, tick: u32) -> Sample {
    let cells = trace.cells as usize;
    let aim = |random: &mut Random, aim: Aim| if random.once_in(target.astray) { random.pick(&AIMS) } else { aim };
    let volts_aim = aim(random, target.volts.1);
    let volts_value = value(random, trace, target.volts.0, volts_aim);
    let temps_aim = aim(random, target.temps.1);
    let temps_value = value(random, trace, target.temps.0, temps_aim);
    let board_aim = aim(random, target.board);
    let current = if target.qualify {
        qualifying(random, target.temps.0, trace.idle as i64, target.astray)
    } else {
        let current_aim = aim(random, target.current.1);
        value(random, trace, target.current.0, current_aim) as i16
    };
    Sample {
        tick,
        current,
        board: value(random, trace, 8, board_aim) as i16,
        volts: sample_with(target.volts.0, volts_value, 0, cells, random).volts,
        temps: sample_with(target.temps.0, temps_value, 0, cells, random).temps,
    }
}

/// A length at or beside what a rule of this time needs, or a short one.
fn length(random: &mut Random, time: u64) -> u64 {
    match random.below(8) {
        0 => 1,
        1 => 2,
        2 => random.within(1, 6) as u64,
        3 => random.within(1, 40) as u64,
        4 => time.max(2) + random.below(3) - 1,
        5 => time + random.below(time + 2),
        _ => (2 * time).max(3) + random.below(5) - 2,
    }
}

fn some_time(random: &mut Random, trace: &Trace) -> u64 {
    let times: Vec<u16> = trace.rules.iter().map(|r| r.time).filter(|t| *t != 0).collect();
    if times.is_empty() {
        3
    } else {
        random.pick(&times).min(255) as u64
    }
}

/// How long the parts of a trace may be.
#[derive(Clone, Copy)]
pub struct Size {
    pub parts: u64,
    pub samples: u64,
    pub unseen: u64,
    pub giant: bool,
    /// One part in so many is a hole; 0 for none.
    pub holes: u64,
}

fn hole_length(random: &mut Random, time: u64, next: u64, size: &Size) -> u64 {
    let left = LAST_TICK + 1 - next;
    if !size.giant || random.once_in(2) {
        return length(random, time).min(size.unseen).min(left);
    }
    match random.below(4) {
        0 => left,
        1 => left.saturating_sub(random.below(30)).max(1),
        2 => random.within(1, left as i64) as u64,
        _ => (1 << random.within(8, 31)).min(left),
    }
}

/// Covers the trace from tick 0 on; answers the number of ticks.
pub fn cover(random: &mut Random, trace: &mut Trace, size: &Size) -> u64 {
    let mut next = 0;
    let mut unseen = 0;
    for _ in 0..size.parts {
        let time = some_time(random, trace);
        let room = LAST_TICK + 1 - next;
        if room == 0 {
            break;
        }
        if size.holes != 0 && random.once_in(size.holes) && unseen < size.unseen {
            let left = Size { unseen: size.unseen - unseen, ..*size };
            let length = hole_length(random, time, next, &left);
            trace.holes.push(Hole { first: next as u32, last: (next + length - 1) as u32 });
            next += length;
            unseen = unseen.saturating_add(length);
            continue;
        }
        let target = target(random, trace);
        let samples = length(random, time).min(size.samples - trace.samples.len() as u64).min(room);
        for _ in 0..samples {
            let sample = sample(random, trace, &target, next as u32);
            trace.samples.push(sample);
            next += 1;
        }
    }
    next
}
