//! What the lists of a run covered.

use crate::count::need;

#[derive(Default)]
pub struct Counts {
    pub lists: u64,
    calls: u64,
    /// Accepted calls by the number of voltages.
    accepted: [u64; 13],
    /// Calls refused with 3: too few voltages, and too many.
    too_few: u64,
    too_many: u64,
    /// Calls refused with 15: `three` too short, and too long.
    too_short: u64,
    too_long: u64,
    /// Calls refused with 3 that have the cause of 15 too.
    both: u64,
    /// Accepted calls with a sum that needs more than 16 bits, and with the greatest one.
    over: u64,
    greatest: u64,
}

impl Counts {
    /// Counts a call with these voltages, `three` as it is afterwards, and this answer.
    pub fn add(&mut self, volts: &[u16], three: &[u32], answer: u64) {
        self.calls += 1;
        match answer >> 32 {
            3 => {
                self.too_few += u64::from(volts.len() < 3);
                self.too_many += u64::from(volts.len() > 12);
                self.both += u64::from(three.len() != 3);
            }
            15 => {
                self.too_short += u64::from(three.len() < 3);
                self.too_long += u64::from(three.len() > 3);
            }
            _ => {
                self.accepted[volts.len()] += 1;
                self.over += u64::from(three[2] > 65_535);
                self.greatest += u64::from(three[2] == 12 * 65_535);
            }
        }
    }

    pub fn missing(&self) -> Vec<String> {
        let mut out = Vec::new();
        for (cells, count) in self.accepted.iter().enumerate().skip(3) {
            need(&mut out, *count, format!("{} cells accepted", cells));
        }
        let others = [
            (self.too_few, "refusal 3 of too few"),
            (self.too_many, "refusal 3 of too many"),
            (self.both, "causes [3, 15]"),
            (self.too_short, "refusal 15 of too short a list"),
            (self.too_long, "refusal 15 of too long a list"),
            (self.over, "sum over 65,535"),
            (self.greatest, "greatest sum"),
        ];
        for (count, name) in others {
            need(&mut out, count, name.to_string());
        }
        out
    }

    pub fn summary(&self) -> String {
        format!(
            "{} lists, {} calls; accepted by 3 to 12 cells {:?}; refused: 3 with too few {}, with too many {}, \
             with the cause of 15 too {}; 15 with too short a list {}, with too long a one {}; \
             sums over 65,535 {}, greatest {}",
            self.lists,
            self.calls,
            &self.accepted[3..],
            self.too_few,
            self.too_many,
            self.both,
            self.too_short,
            self.too_long,
            self.over,
            self.greatest
        )
    }
}
