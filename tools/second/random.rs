//! Numbers from a seed (splitmix64).

pub struct Random(u64);

impl Random {
    pub fn new(seed: u64) -> Random {
        Random(seed)
    }

    /// The generator of trace number `index` of a run.
    pub fn for_trace(seed: u64, index: u64) -> Random {
        let mut first = Random(seed);
        Random(first.next().wrapping_add(index.wrapping_mul(0xD134_2543_DE82_EF95)))
    }

    pub fn next(&mut self) -> u64 {
        self.0 = self.0.wrapping_add(0x9E37_79B9_7F4A_7C15);
        let mut z = self.0;
        z = (z ^ z >> 30).wrapping_mul(0xBF58_476D_1CE4_E5B9);
        z = (z ^ z >> 27).wrapping_mul(0x94D0_49BB_1331_11EB);
        z ^ z >> 31
    }

    /// A number below `bound`, which is above 0.
    pub fn below(&mut self, bound: u64) -> u64 {
        self.next() % bound
    }

    /// A number from `first` to `last`.
    pub fn within(&mut self, first: i64, last: i64) -> i64 {
        first + self.below((last - first + 1) as u64) as i64
    }

    /// True once in `times`.
    pub fn once_in(&mut self, times: u64) -> bool {
        self.below(times) == 0
    }

    pub fn pick<T: Copy>(&mut self, list: &[T]) -> T {
        list[self.below(list.len() as u64) as usize]
    }

    /// A number from `first` to `last`, often at or beside one of the two.
    pub fn near_ends(&mut self, first: i64, last: i64) -> i64 {
        match self.below(6) {
            0 => first,
            1 => last,
            2 => (first + 1).min(last),
            3 => (last - 1).max(first),
            _ => self.within(first, last),
        }
    }
}
