//! The set of states that a rule may be in: bit s of the 256 says that some filling gives state s.

#[derive(Clone, Copy, Debug, PartialEq)]
pub struct States([u64; 4]);

impl States {
    pub const EMPTY: States = States([0; 4]);

    pub fn only(state: usize) -> States {
        let mut set = States::EMPTY;
        set.add(state);
        set
    }

    pub fn add(&mut self, state: usize) {
        self.0[state / 64] |= 1 << (state % 64);
    }

    pub fn has(&self, state: usize) -> bool {
        self.0[state / 64] >> (state % 64) & 1 == 1
    }

    fn is_empty(&self) -> bool {
        self.0 == [0; 4]
    }

    fn without(mut self, state: usize) -> States {
        self.0[state / 64] &= !(1 << (state % 64));
        self
    }

    fn with_all(mut self, other: States) -> States {
        for i in 0..4 {
            self.0[i] |= other.0[i];
        }
        self
    }

    /// Every state one higher; 255 is not in the set.
    fn raised(self) -> States {
        let mut out = States::EMPTY;
        let mut carry = 0;
        for i in 0..4 {
            out.0[i] = self.0[i] << 1 | carry;
            carry = self.0[i] >> 63;
        }
        out
    }

    /// After an evaluation whose two tests are known.
    pub fn seen(self, top: usize, threshold: bool, recovers: bool) -> States {
        let below = self.without(top);
        let mut next = States::EMPTY;
        if threshold {
            next = below.raised();
        } else if !below.is_empty() {
            next.add(0);
        }
        if self.has(top) {
            next.add(if recovers { 0 } else { top });
        }
        next
    }

    /// After an evaluation of which nothing is known.
    pub fn unseen(self, top: usize, latches: bool) -> States {
        let met = self.seen(top, true, false);
        let neither = self.seen(top, false, false);
        let recovered = self.seen(top, false, !latches);
        met.with_all(neither).with_all(recovered)
    }

    pub fn members(&self) -> Vec<usize> {
        (0..256).filter(|s| self.has(*s)).collect()
    }
}
