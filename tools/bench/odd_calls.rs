// Calls of both recorders with records, lengths and ticks of many kinds, most of them refused. Stops if they differ in a byte.
use crate::recorders::{Both, Recorder};
use crate::trace_bytes::Sample;
use std::collections::BTreeSet;

struct Random(u64);

impl Random {
    // One of them, by xorshift.
    fn of<T: Copy>(&mut self, list: &[T]) -> T {
        self.0 ^= self.0 << 13;
        self.0 ^= self.0 >> 7;
        self.0 ^= self.0 << 17;
        list[(self.0 % list.len() as u64) as usize]
    }

    fn record(&mut self) -> Vec<u32> {
        let mut record = vec![
            self.of(&[3, 3, 3, 12, 12, 12, 2, 13, u32::MAX]),
            self.of(&[0, 1, 2, 3, 3, 3, u32::MAX]),
            self.of(&[0, 1, 1, 50, u32::MAX]),
            self.of(&[0, 0, 1, 7, 1023, 1024, 1025]),
            self.of(&[0, 0, 1, 2, 3, 4]),
            self.of(&[0, 1, 2, 5, 65_534, 65_535, u32::MAX]),
        ];
        record.resize(self.of(&[6, 6, 6, 6, 6, 6, 6, 0, 5, 7]), 0);
        record
    }

    // The last hole of a store of zeros touches tick 1; that of a store of FFh must not touch tick 0.
    fn store(&mut self) -> Vec<u8> {
        vec![self.of(&[0, 0xff]); 8192 + self.of(&[60, 60, 168, 168, 167, 0, 20, 200])]
    }

    fn sample(&mut self) -> Sample {
        let (volts, temps) = (self.of(&[3, 3, 3, 12, 12, 12, 2, 13]), self.of(&[0, 0, 0, 0, 0, 1]));
        Sample {
            tick: self.of(&[0, 1, 2, 50, 51, 60, u32::MAX - 1, u32::MAX]),
            current: self.of(&[0, -1, i16::MIN, i16::MAX]),
            board: self.of(&[1, -2, i16::MIN, i16::MAX]),
            volts: (0..volts).map(|k| self.of(&[k, 0x1234, 0xfffe])).collect(),
            temps: (0..volts + temps).map(|k| self.of(&[-1 - k as i16, 0x1234, i16::MIN])).collect(),
        }
    }
}

pub fn compare() {
    let mut random = Random(1);
    let mut seen = BTreeSet::new();
    for _ in 0..100_000 {
        let (mut record, mut store, s) = (random.record(), random.store(), random.sample());
        if random.of(&[false, false, false, true]) {
            store.truncate(random.of(&[0, 8191]));
        }
        let mut buffer = vec![0x55; random.of(&[0, 19, 20, 41, 55, 56, 60, 112, 168, 169])];
        let started = Both::start(random.of(&[0, 2, 3, 12, 13, 255]), s.tick, &mut record.clone());
        let offered = Both::offer(&mut record, &mut store, s.tick, &s);
        let drained = Both::drain(&mut record, &mut store, &mut buffer);
        seen.extend([(0, started >> 32), (1, offered >> 32), (2, drained >> 32)]);
    }
    let expected = [(0, 0), (0, 3), (0, 15), (1, 0), (1, 9), (1, 15), (1, 16), (1, 17), (2, 0), (2, 16)];
    assert!(seen.into_iter().eq(expected), "a refusal never came up");
}
