// Random traces: valid ones, and such with a fault.
use crate::trace_bytes::{seal, Sample, Trace};

pub struct Random(pub u64);

impl Random {
    // Splitmix64.
    pub fn next(&mut self) -> u64 {
        self.0 = self.0.wrapping_add(0x9e37_79b9_7f4a_7c15);
        let x = (self.0 ^ self.0 >> 30).wrapping_mul(0xbf58_476d_1ce4_e5b9);
        let x = (x ^ x >> 27).wrapping_mul(0x94d0_49bb_1331_11eb);
        x ^ x >> 31
    }

    // A number from `low` to `high`.
    pub fn within(&mut self, low: i64, high: i64) -> i64 {
        low + (self.next() % (high - low + 1) as u64) as i64
    }

    pub fn one_in(&mut self, n: i64) -> bool {
        self.within(1, n) == 1
    }

    pub fn pick<T: Copy>(&mut self, from: &[T]) -> T {
        from[self.within(0, from.len() as i64 - 1) as usize]
    }
}

const TIMES: [u16; 12] = [1, 2, 3, 63, 64, 65, 127, 128, 191, 192, 254, 255];

fn range(rule: usize, cells: u8) -> (i64, i64) {
    match rule {
        0 | 1 | 10 | 15 => (0, 65_535),
        2 | 3 => (0, 65_535 * cells as i64),
        _ => (-32_768, 32_767),
    }
}

// Mostly in a narrow band, so that rules of one quantity meet, else anywhere in the range or at its ends.
fn level(x: &mut Random, low: i64, high: i64) -> i64 {
    match x.within(0, 9) {
        0 => low,
        1 => high,
        2 | 3 => x.within(low, high),
        _ => x.within(1000, 1006).clamp(low, high),
    }
}

// An enabled rule within its limits, or one that is off with any numbers.
fn random_rule(x: &mut Random, rule: usize, cells: u8, long: bool) -> (i32, i32, u16) {
    if x.one_in(8) {
        return (x.next() as i32, x.next() as i32, 0);
    }
    let time = if long { x.pick(&TIMES) } else { x.pick(&TIMES[..3]) };
    let (low, high) = range(rule, cells);
    let (threshold, recovery) = match rule {
        12 => (level(x, low + 1, high), 0),
        10..=15 => (level(x, low, high - 1), 0),
        _ => {
            let (a, b) = (level(x, low + 1, high - 1), level(x, low + 1, high - 1));
            if matches!(rule, 1 | 3 | 5 | 9) { (a.min(b), a.max(b)) } else { (a.max(b), a.min(b)) }
        }
    };
    (threshold as i32, recovery as i32, time)
}

// Moves the readings so that the quantity of `rule` is `value`.
fn aim(x: &mut Random, s: &mut Sample, rule: usize, value: i64) {
    let k = x.within(0, s.volts.len() as i64 - 1) as usize;
    let (volt, temp, n) = (value as u16, value as i16, s.volts.len() as i64);
    match rule {
        0 | 10 => s.volts.iter_mut().for_each(|v| *v = volt.min(*v)),
        1 => s.volts.iter_mut().for_each(|v| *v = volt.max(*v)),
        2 | 3 => {
            s.volts.fill((value / n) as u16);
            (0..(value % n) as usize).for_each(|i| s.volts[i] += 1);
        }
        4 | 5 | 11 | 12 => s.current = temp,
        8 => s.board = temp,
        9 => s.temps.iter_mut().for_each(|t| *t = temp.max(*t)),
        15 => {
            let least = x.within(0, 65_535 - value) as u16;
            s.volts.fill(least);
            s.volts[k] = least + volt;
        }
        _ => s.temps.iter_mut().for_each(|t| *t = temp.min(*t)),
    }
    match rule {
        0 | 1 | 10 => s.volts[k] = volt,
        6 | 7 | 9 | 13 | 14 => s.temps[k] = temp,
        _ => {}
    }
}

// Moves some readings to or beside a threshold or recovery, and the current to or beside the idle current.
fn vary(x: &mut Random, t: &Trace, s: &mut Sample) {
    for _ in 0..x.within(1, 6) {
        let rule = x.within(0, 15) as usize;
        let (low, high) = range(rule, t.cells);
        let (threshold, recovery, _) = t.rules[rule];
        let near = if x.one_in(2) { threshold } else { recovery } as i64;
        let value = if x.one_in(12) { x.within(low, high) } else { (near + x.within(-1, 1)).clamp(low, high) };
        aim(x, s, rule, value);
        if x.one_in(3) {
            let idle = t.idle as i16;
            s.current = x.pick(&[idle, idle + 1, -idle, -idle - 1, 0]);
        }
    }
}

fn random_sample(x: &mut Random, cells: u8) -> Sample {
    Sample {
        tick: 0,
        current: x.next() as i16,
        board: x.next() as i16,
        volts: (0..cells).map(|_| x.next() as u16).collect(),
        temps: (0..cells).map(|_| x.next() as i16).collect(),
    }
}

// Samples and holes up to about `ticks` ticks, readings kept for `keep` samples on average. Answers the number of ticks.
fn add_records(x: &mut Random, t: &mut Trace, ticks: i64, keep: i64) -> u32 {
    let mut s = random_sample(x, t.cells);
    let holes_rare = x.pick(&[2, 4, 20, 1_000_000]);
    let mut tick = 0;
    while (tick as i64) < ticks {
        if x.one_in(holes_rare) {
            let time = t.rules[x.within(0, 15) as usize].2.max(1) as i64;
            let most = if x.one_in(3) { 3 * time + 3 } else { 4 };
            let last = tick + x.within(0, most) as u32;
            t.holes.push((tick, last));
            tick = last + 1;
        } else {
            for _ in 0..x.within(1, 1 + keep / 2) {
                if x.one_in(keep) {
                    vary(x, t, &mut s);
                }
                t.samples.push(Sample { tick, ..s.clone() });
                tick += 1;
            }
        }
    }
    tick
}

fn random_bus(x: &mut Random, t: &Trace, tick: u32) -> [u8; 6] {
    let seen = t.samples.iter().find(|s| s.tick == tick);
    let sum = seen.map_or(0, |s| s.volts.iter().map(|&v| v as u32).sum::<u32>()) as u16;
    let (command, word) = match x.within(0, 9) {
        0 | 1 => (0x09, sum),
        2 | 3 => (0x0a, seen.map_or(0, |s| s.current as u16)),
        4 => (x.next() as u8, x.next() as u16),
        5 => (x.pick(&[0x09, 0x0a, 0x16]), x.next() as u16),
        _ => (0x16, x.pick(&[0, 0x4000, 0x4800, 0x5800, 0x1000, 0x1800, 0x0800, 0x5000, 0xffff])),
    };
    let mut bus = seal(command, word);
    if x.one_in(10) {
        bus[x.within(0, 5) as usize] ^= 1 << x.within(0, 7);
    }
    bus
}

// A valid trace; a long one has times up to 255.
pub fn random_trace(x: &mut Random, long: bool) -> Trace {
    let mut t = Trace::new(if x.one_in(2) { 3 } else { x.within(3, 12) as u8 });
    t.idle = x.pick(&[0, 1, 1000, 1003, 32_766]);
    t.rules = std::array::from_fn(|rule| random_rule(x, rule, t.cells, long));
    let (ticks, keep) = if long { (x.within(0, 900), x.pick(&[5, 80, 300])) } else { (x.within(0, 25), x.pick(&[1, 2, 6])) };
    let ticks = add_records(x, &mut t, ticks, keep);
    if ticks > 0 && x.one_in(2) {
        let mut at: Vec<u32> = (0..x.within(1, 30)).map(|_| x.within(0, ticks as i64 - 1) as u32).collect();
        at.sort();
        t.replies = at.into_iter().map(|tick| (tick, random_bus(x, &t, tick))).collect();
    }
    t
}

fn spoil_rule(x: &mut Random, t: &mut Trace) {
    let rule = x.within(0, 15) as usize;
    let (low, high) = range(rule, t.cells);
    let near = [low - 1, low, low + 1, high - 1, high, high + 1];
    let r = &mut t.rules[rule];
    match x.within(0, 3) {
        0 => r.0 = x.pick(&near) as i32,
        1 => r.1 = x.pick(&near) as i32,
        2 => r.2 = x.pick(&[255, 256, 257, 512, 65_535]),
        _ => *r = (r.1, r.0, r.2.max(1)),
    }
}

fn spoil_hole(x: &mut Random, t: &mut Trace) {
    if t.holes.is_empty() {
        return;
    }
    let k = x.within(0, t.holes.len() as i64 - 1) as usize;
    let h = &mut t.holes[k];
    match x.within(0, 6) {
        0 => *h = (h.1, h.0),
        1 => h.0 = h.0.wrapping_add(x.pick(&[u32::MAX, 1])),
        2 => h.1 = h.1.wrapping_add(x.pick(&[u32::MAX, 1])),
        3 => h.1 = x.pick(&[u32::MAX - 1, u32::MAX]),
        4 => *h = (h.0, h.0),
        5 => drop(t.holes.remove(k)),
        _ => t.holes.insert(k, t.holes[k]),
    }
}

fn spoil_sample(x: &mut Random, t: &mut Trace) {
    if t.samples.is_empty() {
        return;
    }
    let k = x.within(0, t.samples.len() as i64 - 1) as usize;
    let tick = t.samples[k].tick;
    match x.within(0, 3) {
        0 => t.samples[k].tick = tick.wrapping_add(x.pick(&[u32::MAX, 1])),
        1 => t.samples[k].tick = x.pick(&[u32::MAX, u32::MAX - 1, tick / 2]),
        2 => drop(t.samples.remove(k)),
        _ => t.samples.insert(k, t.samples[k].clone()),
    }
}

// A hole that ends at the last tick there can be, and perhaps one record more.
fn add_last_hole(x: &mut Random, t: &mut Trace) {
    let after_hole = t.holes.last().map_or(0, |h| h.1.wrapping_add(1));
    let after = t.samples.last().map_or(0, |s| s.tick.wrapping_add(1)).max(after_hole);
    t.holes.push((after, u32::MAX - 1));
    match x.within(0, 2) {
        0 => t.holes.push((u32::MAX, u32::MAX)),
        1 => t.samples.push(Sample { tick: u32::MAX, ..random_sample(x, t.cells) }),
        _ => t.replies.push((x.pick(&[u32::MAX - 1, u32::MAX]), seal(0x16, x.next() as u16))),
    }
}

fn spoil_reply(x: &mut Random, t: &mut Trace) {
    let ticks = t.samples.len() as u32;
    let k = x.within(0, t.replies.len() as i64) as usize;
    t.replies.insert(k, (x.pick(&[0, 1, ticks / 2, ticks, u32::MAX]), seal(0x09, 0)));
}

fn spoil_bytes(x: &mut Random, bytes: &mut Vec<u8>) {
    let length = bytes.len();
    match x.within(0, 9) {
        0 => bytes.truncate(x.within(0, 7) as usize),
        1 => bytes.truncate(x.within(0, length as i64) as usize),
        2 => bytes.extend((0..x.within(1, 60)).map(|_| 0)),
        3 => bytes[0] = x.pick(&[0, 2, 129]),
        4 => bytes[1] = x.pick(&[0, 2, 13, 255, 3, 4, 12]),
        5 => bytes[2..4].copy_from_slice(&x.pick(&[32_766u16, 32_767, 65_535]).to_le_bytes()),
        6 => bytes[4] = x.pick(&[0, 15, 17]),
        7 => bytes[166] = bytes[166].wrapping_add(x.pick(&[1, 255])),
        _ => {
            let at = if x.one_in(2) { x.within(0, length.min(260) as i64 - 1) } else { x.within(0, length as i64 - 1) };
            bytes[at as usize] ^= 1 << x.within(0, 7);
        }
    }
}

// The bytes of a valid trace with one to three faults, some of which change nothing that is refused.
pub fn spoiled(x: &mut Random, trace: &Trace) -> Vec<u8> {
    let mut t = trace.clone();
    let faults: Vec<i64> = (0..x.pick(&[1, 1, 1, 2, 3])).map(|_| x.within(0, 6)).collect();
    for fault in &faults {
        match fault {
            0 => spoil_rule(x, &mut t),
            1 => spoil_hole(x, &mut t),
            2 => spoil_sample(x, &mut t),
            3 => spoil_reply(x, &mut t),
            4 if x.one_in(3) => add_last_hole(x, &mut t),
            _ => {}
        }
    }
    let mut bytes = t.bytes();
    for _ in faults.iter().filter(|&&fault| fault > 4) {
        if bytes.len() > 166 {
            spoil_bytes(x, &mut bytes);
        }
    }
    bytes
}
