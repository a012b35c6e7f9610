// The possible states of a rule as a set, in words of bits: state s is bit s. No set is empty.
use super::checks::Setting;
use super::readings::Readings;
use super::rows::ROWS;
use super::states::{Firsts, States, CLEAR, HELD, NEVER, UNKNOWN};
use std::array::from_fn;

const WORDS: usize = 5;
type Set = [u64; WORDS];
const START: Set = [1, 0, 0, 0, 0];

// The states below `top`.
fn below(top: usize) -> Set {
    from_fn(|j| match top.saturating_sub(64 * j) {
        n @ 0..=63 => (1 << n) - 1,
        _ => u64::MAX,
    })
}

fn has(set: &Set, state: usize) -> bool {
    set[state / 64] >> (state % 64) & 1 == 1
}

fn any_below(set: &Set, top: usize) -> bool {
    let under = below(top);
    (0..WORDS).any(|j| set[j] & under[j] != 0)
}

// One seen evaluation. `met` and `back` are never both.
fn step(set: &mut Set, top: usize, met: bool, back: bool) {
    if back {
        *set = START;
        return;
    }
    let (q, r) = (top / 64, top % 64);
    let held = has(set, top);
    let (mut some, mut carry) = (0, 0);
    for j in 0..WORDS {
        let x = match j {
            _ if j < q => set[j],
            _ if j == q => set[j] & ((1 << r) - 1),
            _ => 0,
        };
        some |= x;
        set[j] = if met { x << 1 | carry } else { 0 };
        carry = x >> 63;
    }
    if held {
        set[q] |= 1 << r;
    }
    if !met && some != 0 {
        set[0] |= 1;
    }
}

fn shifted(set: &Set, by: usize) -> Set {
    let (q, r) = (by / 64, by % 64);
    from_fn(|j| {
        let own = if j >= q { set[j - q] << r } else { 0 };
        let carried = if j > q && r > 0 { set[j - q - 1] >> (64 - r) } else { 0 };
        own | carried
    })
}

// `count` unseen evaluations at once: a state below the top has counted up with each, or fell to 0 at one of them and
// counted up since. After `top` of them the set is still. Answers after how many a lower state can reach the top.
fn unseen_steps(set: &mut Set, top: usize, recovers: bool, count: u32) -> Option<u32> {
    let count = (count as usize).min(top);
    let under = below(top);
    let held = has(set, top);
    let lower: Set = from_fn(|j| set[j] & under[j]);
    let highest = (0..WORDS).rev().find(|&j| lower[j] != 0).map(|j| 64 * j + 63 - lower[j].leading_zeros() as usize);
    if count == 0 || highest.is_none() && !recovers {
        return None;
    }
    let (up, fell) = (shifted(&lower, count), below(count));
    *set = from_fn(|j| (up[j] | fell[j]) & under[j]);
    let steps = highest.map(|h| top - h).filter(|&steps| steps <= count);
    if held || steps.is_some() {
        set[top / 64] |= 1 << (top % 64);
    }
    steps.map(|steps| steps as u32)
}

pub struct Sets {
    settings: [Setting; 16],
    sets: [Set; 16],
    firsts: Firsts,
}

impl States for Sets {
    fn begin(settings: &[Setting; 16]) -> Sets {
        Sets { settings: *settings, sets: [START; 16], firsts: Firsts::none() }
    }

    fn see(&mut self, tick: u32, r: &Readings) {
        let Firsts { possible, held } = &mut self.firsts;
        for (i, row) in ROWS.iter().enumerate() {
            let Setting { threshold, recovery, top } = self.settings[i];
            if top == 0 || row.even && tick % 2 == 1 {
                continue;
            }
            let (v, qualified) = (r.values[row.quantity as usize], r.qualified[row.quantity as usize]);
            let met = qualified && if row.high { v > threshold } else { v < threshold };
            let back = row.recovers && if row.high { v < recovery } else { v > recovery };
            let set = &mut self.sets[i];
            step(set, top, met, back);
            if held[i] == NEVER && has(set, top) {
                possible[i] = possible[i].min(tick);
                if !any_below(set, top) {
                    held[i] = tick;
                }
            }
        }
    }

    // No status starts to be held there.
    fn miss(&mut self, first: u32, last: u32) {
        for (i, row) in ROWS.iter().enumerate() {
            let top = self.settings[i].top;
            let count = row.evaluations(first, last);
            if top == 0 || count == 0 {
                continue;
            }
            let steps = unseen_steps(&mut self.sets[i], top, row.recovers, count);
            if let (NEVER, Some(k)) = (self.firsts.possible[i], steps) {
                self.firsts.possible[i] = row.evaluation(first, k);
            }
        }
    }

    fn alert(&self, rule: usize) -> u8 {
        let set = &self.sets[rule];
        match (has(set, 0), *set == START) {
            (false, _) => HELD,
            (true, true) => CLEAR,
            (true, false) => UNKNOWN,
        }
    }

    fn status(&self, rule: usize) -> u8 {
        let (set, top) = (&self.sets[rule], self.settings[rule].top);
        match (top != 0 && has(set, top), any_below(set, top)) {
            (false, _) => CLEAR,
            (true, false) => HELD,
            (true, true) => UNKNOWN,
        }
    }

    fn firsts(&self) -> &Firsts {
        &self.firsts
    }
}
