// The possible states of a rule as two numbers, the least and the greatest. One array a field, and loops over the rules without a
// branch, which rustc turns into vector instructions: sixteen states of a byte each are one vector.
use crate::plain_judge::checks::Setting;
use crate::plain_judge::readings::{qualified, Readings};
use crate::plain_judge::rows::{Quantity::*, Row, ROWS};
use crate::plain_judge::states::{Firsts, States, CLEAR, HELD, UNKNOWN};
use std::array::from_fn;

pub struct Bounds {
    // While the pack idles, charges and discharges. No value is above the threshold of a rule that does not qualify then.
    thresholds: [[i32; 16]; 3],
    // No value is below the recovery of a rule that latches.
    recovery: [i32; 16],
    every_tick: [bool; 16],
    top: [u8; 16],
    least: [u8; 16],
    greatest: [u8; 16],
    firsts: Firsts,
}

// A number as the rule's side reads it: a low rule turns the order round, and is then tested as a high one.
fn along(row: &Row, v: i32) -> i32 {
    if row.high { v } else { !v }
}

impl Bounds {
    // Notes the tick for each rule whose status is held or unknown, unless an earlier one stands.
    #[cold]
    fn note(&mut self, tick: u32) {
        for i in 0..16 {
            let status = self.status(i);
            let Firsts { possible, held } = &mut self.firsts;
            if status != CLEAR {
                possible[i] = possible[i].min(tick);
            }
            if status == HELD {
                held[i] = held[i].min(tick);
            }
        }
    }
}

impl States for Bounds {
    fn begin(settings: &[Setting; 16]) -> Bounds {
        let thresholds = [(false, false), (true, false), (false, true)].map(|(charging, discharging)| {
            let qualified = qualified(charging, discharging);
            from_fn(|i| match &ROWS[i] {
                row if qualified[row.quantity as usize] => along(row, settings[i].threshold),
                _ => i32::MAX,
            })
        });
        Bounds {
            thresholds,
            recovery: from_fn(|i| if ROWS[i].recovers { along(&ROWS[i], settings[i].recovery) } else { i32::MIN }),
            every_tick: from_fn(|i| !ROWS[i].even),
            top: from_fn(|i| settings[i].top as u8),
            least: [0; 16],
            greatest: [0; 16],
            firsts: Firsts::none(),
        }
    }

    // Both numbers move as any state does.
    fn see(&mut self, tick: u32, r: &Readings) {
        let values: [i32; 16] = from_fn(|i| along(&ROWS[i], r.values[ROWS[i].quantity as usize]));
        let threshold = match (r.qualified[HighestTempCharging as usize], r.qualified[HighestTempDischarging as usize]) {
            (true, _) => &self.thresholds[1],
            (_, true) => &self.thresholds[2],
            _ => &self.thresholds[0],
        };
        let (mut met, mut back) = ([false; 16], [false; 16]);
        for i in 0..16 {
            met[i] = values[i] > threshold[i];
            back[i] = values[i] < self.recovery[i];
        }
        let even = tick % 2 == 0;
        let mut rises = false;
        for i in 0..16 {
            let (top, moves) = (self.top[i], even | self.every_tick[i]);
            let mut step = |s: u8| {
                let at_top = if back[i] { 0 } else { s };
                let below = if met[i] { s.wrapping_add(1) } else { 0 };
                let next = if s == top { at_top } else { below };
                let next = if moves { next } else { s };
                rises |= (s != top) & (next == top);
                next
            };
            self.least[i] = step(self.least[i]);
            self.greatest[i] = step(self.greatest[i]);
        }
        if rises {
            self.note(tick);
        }
    }

    // The greatest state counts up with each evaluation, and the least falls to 0 unless its rule has latched.
    fn miss(&mut self, first: u32, last: u32) {
        for (i, row) in ROWS.iter().enumerate() {
            let (top, count) = (self.top[i], row.evaluations(first, last));
            if count == 0 {
                continue;
            }
            let steps = (top - self.greatest[i]) as u32;
            if 0 < steps && steps <= count {
                let possible = &mut self.firsts.possible[i];
                *possible = row.evaluation(first, steps).min(*possible);
            }
            self.greatest[i] += steps.min(count) as u8;
            if row.recovers || self.least[i] != top {
                self.least[i] = 0;
            }
        }
    }

    fn alert(&self, rule: usize) -> u8 {
        match (self.least[rule], self.greatest[rule]) {
            (_, 0) => CLEAR,
            (0, _) => UNKNOWN,
            _ => HELD,
        }
    }

    fn status(&self, rule: usize) -> u8 {
        let top = self.top[rule];
        match (top != 0 && self.greatest[rule] == top, self.least[rule] == top) {
            (false, _) => CLEAR,
            (true, true) => HELD,
            (true, false) => UNKNOWN,
        }
    }

    fn firsts(&self) -> &Firsts {
        &self.firsts
    }
}
