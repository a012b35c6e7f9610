// The captures that are measured.
use crate::trace_bytes::{seal, Sample, Trace};

pub const CELLS: u8 = 12;

// All sixteen rules on at T = 255.
fn rules() -> [(i32, i32, u16); 16] {
    [
        (4200, 4100, 255),
        (2800, 3000, 255),
        (50_000, 49_500, 255),
        (34_500, 36_000, 255),
        (3000, 2500, 255),
        (-3000, -2500, 255),
        (450, 400, 255),
        (600, 550, 255),
        (700, 650, 255),
        (-100, -50, 255),
        (4350, 0, 255),
        (4000, 0, 255),
        (-4000, 0, 255),
        (500, 0, 255),
        (650, 0, 255),
        (800, 0, 255),
    ]
}

// A value that rises from `low` to `high` and falls again in `period` ticks.
fn wave(tick: u32, period: u32, low: i32, high: i32) -> i32 {
    let at = (tick % period) as i32;
    let half = (period / 2) as i32;
    low + (high - low) * (half - (at - half).abs()) / half
}

// Cells differ by up to 77 mV, and the fourth falls behind now and then.
pub fn sample(tick: u32) -> Sample {
    let volt = wave(tick + 900, 2400, 2500, 4500);
    let heat = wave(tick + 1200, 3100, -300, 900);
    let behind = wave(tick + 2000, 5300, -2500, 1200).max(0);
    let cell = |k: u32| volt - 7 * ((tick + 5 * k) % 12) as i32 - if k == 3 { behind } else { 0 };
    Sample {
        tick,
        current: wave(tick, 1700, -5000, 5000) as i16,
        board: wave(tick + 1500, 4100, 200, 900) as i16,
        volts: (0..CELLS as u32).map(|k| cell(k) as u16).collect(),
        temps: (0..CELLS as u32).map(|k| (heat - 3 * ((tick + k) % 5) as i32) as i16).collect(),
    }
}

// One tick in a hundred is unseen, odd and even ones by turns.
fn unseen(tick: u32) -> bool {
    tick % 100 == 99 - tick / 100 % 2
}

// A capture of `count` samples.
pub fn capture(count: usize) -> Trace {
    let mut t = Trace::new(CELLS);
    (t.idle, t.rules) = (50, rules());
    for tick in 0.. {
        if t.samples.len() == count {
            break;
        }
        if unseen(tick) {
            t.holes.push((tick, tick));
        } else {
            t.samples.push(sample(tick));
        }
    }
    t
}

pub fn one_hole(ticks: u32) -> Trace {
    Trace { holes: vec![(0, ticks - 1)], ..capture(0) }
}

// A reply every ten ticks, each tenth at an unseen tick: right and wrong ones, and the status.
pub fn with_replies(mut t: Trace) -> Trace {
    for k in 0..1000u32 {
        let tick = (10 * k..10 * k + 10).find(|&tick| unseen(tick)).unwrap_or(10 * k);
        let s = sample(tick);
        let sum: u32 = s.volts.iter().map(|&v| v as u32).sum();
        let mut bus = match k % 7 {
            0 | 3 => seal(0x09, sum as u16),
            1 | 4 => seal(0x0a, s.current as u16),
            2 => seal(0x0d, 50),
            5 => seal(0x09, sum as u16 + 1),
            _ => seal(0x16, [0, 0x4800, 0x5800, 0x1000][k as usize / 7 % 4]),
        };
        match k % 13 {
            3 => bus[0] = 0x14,
            7 => bus[5] ^= 1,
            _ => {}
        }
        t.replies.push((tick, bus));
    }
    t
}
