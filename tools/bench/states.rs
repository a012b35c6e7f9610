// What a judge keeps of the possible states of the rules, and the flags that follow. The judge is generic over it: each way to keep
// them has a judge that is compiled as if it stood alone.
use super::checks::Setting;
use super::readings::Readings;
use super::rows::{Row, ROWS};
use std::array::from_fn;

pub const NEVER: u32 = u32::MAX;
pub const CLEAR: u8 = 0;
pub const HELD: u8 = 1;
pub const UNKNOWN: u8 = 2;

pub trait States {
    // Every rule at state 0.
    fn begin(settings: &[Setting; 16]) -> Self;
    fn see(&mut self, tick: u32, r: &Readings);
    // The ticks from `first` to `last` are unseen.
    fn miss(&mut self, first: u32, last: u32);
    fn alert(&self, rule: usize) -> u8;
    fn status(&self, rule: usize) -> u8;
    fn firsts(&self) -> &Firsts;
}

// The first ticks at which the status of each rule is held or unknown, and at which it is held.
pub struct Firsts {
    pub possible: [u32; 16],
    pub held: [u32; 16],
}

impl Firsts {
    pub fn none() -> Firsts {
        Firsts { possible: [NEVER; 16], held: [NEVER; 16] }
    }
}

pub fn statuses(states: &impl States) -> [u8; 16] {
    from_fn(|i| states.status(i))
}

// The flag of an output: held if a rule that drives it is held, clear if all are clear, else unknown.
pub fn output(statuses: &[u8; 16], drives: impl Fn(&Row) -> bool) -> u8 {
    let mut flag = CLEAR;
    for (row, &status) in ROWS.iter().zip(statuses) {
        if drives(row) && status != CLEAR {
            if status == HELD {
                return HELD;
            }
            flag = UNKNOWN;
        }
    }
    flag
}
