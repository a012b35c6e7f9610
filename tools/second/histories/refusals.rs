//! Offers and drains with one cause of refusal or several at once: the first in the paper's order is answered, and once
//! it is mended the next one.

use super::arguments::{bytes, sample, spoil_lists, NO_RECORD};
use super::count::{numbers_of, Counts};
use super::pair::Pair;
use crate::random::Random;
use crate::recorder::{sample_bytes, store_bytes};
use crate::trace::Sample;

const END: u32 = 4_294_967_295;

/// A record, the last tick of its last hole, and an offer to it.
#[derive(Clone)]
struct Draft {
    record: [u32; 6],
    record_len: usize,
    store_len: usize,
    last_hole: u32,
    sample: Sample,
}

/// A draft that is accepted, for a store of this length.
fn accepted(random: &mut Random, store_len: usize) -> Draft {
    let cells = random.within(3, 12) as u32;
    let number = random.near_ends(0, 20) as u32;
    let stored = random.near_ends(0, i64::from(number)) as u32;
    let ever = stored + random.pick(&[0, 1, 5, 65_535 - stored]);
    let next = random.near_ends(1, i64::from(END) - 10) as u32;
    let holes = random.near_ends(0, 1_023) as u32;
    let tick = next + random.pick(&[0, 0, 1, 7]);
    Draft {
        record: [cells, number, next, holes, stored, ever],
        record_len: 6,
        store_len,
        last_hole: random.pick(&[0, next - 1, next, END]),
        sample: sample(random, cells as usize, tick),
    }
}

impl Draft {
    /// One of the six lines of refusal 16.
    fn spoil_record(&mut self, random: &mut Random, line: u64) {
        let [cells, number, ..] = self.record;
        let room = ((self.store_len - 8_192) / sample_bytes(cells)) as u32;
        let wraps = ((1u64 << 32) / sample_bytes(cells) as u64) as u32 + 1;
        match line {
            0 => self.record_len = random.pick(&NO_RECORD),
            1 => self.record[0] = random.pick(&[0, 2, 13, 256, 259, 65_536 + cells, END]),
            2 => self.record[1] = random.pick(&[room + 1, wraps, END]),
            3 => self.store_len = random.pick(&[store_bytes(cells, number) - 1, 8_191, 0]),
            4 => self.record[3] = random.pick(&[1_025, 1_026, 65_536, END]),
            _ => self.record[4] = random.pick(&[number + 1, END]),
        }
    }

    /// A new hole is needed, and 1,024 stand.
    fn fill_holes(&mut self, random: &mut Random) {
        let [_, number, next, ..] = self.record;
        self.record[3] = 1_024;
        self.last_hole = random.pick(&[0, next.saturating_sub(2), next, END]);
        if self.last_hole.checked_add(1) == Some(next) {
            self.last_hole = next;
        }
        match random.below(3) {
            0 => self.record[4] = number,
            1 => self.record[5] = random.pick(&[65_535, 65_536, END]),
            _ => self.sample.tick = next + random.pick(&[1, 2, 9]),
        }
    }

    fn spoil(&mut self, random: &mut Random, number: u64, line: u64) {
        match number {
            17 => self.fill_holes(random),
            9 => self.sample.tick = random.pick(&[self.record[2] - 1, 0, END]),
            15 => spoil_lists(random, &mut self.sample),
            _ => self.spoil_record(random, line),
        }
    }

    fn put(&self, pair: &mut Pair) {
        for (at, value) in self.record.iter().enumerate() {
            pair.forge_record(at, *value);
        }
        let end = 8 * self.record[3].clamp(1, 1_024) as usize;
        pair.forge_store(end - 4, &self.last_hole.to_le_bytes());
        pair.lend_record(self.record_len);
        pair.lend_store(self.store_len);
    }
}

/// Offers with these causes, which are then mended one by one from the first on.
fn mend(random: &mut Random, pair: &mut Pair, causes: usize) -> Result<(), String> {
    let base = accepted(random, pair.store().len());
    let (seed, line) = (random.next(), random.below(6));
    let numbers = numbers_of(causes);
    pair.counts.causes[causes] += 1;
    for mended in 0..=numbers.len() {
        let mut draft = base.clone();
        for number in numbers[mended..].iter().rev() {
            draft.spoil(&mut Random::new(seed ^ number), *number, line);
        }
        draft.put(pair);
        let first = numbers.get(mended).copied().unwrap_or(0);
        pair.counts.lines[line as usize] += u64::from(first == 16);
        let (drained, _) = pair.drain(random.below(60) as usize)?;
        pair.expect(drained, if first == 16 { 16 } else { 0 }, 0)?;
        draft.put(pair);
        let offered = pair.offer(&draft.sample)?;
        pair.expect(offered, first, if first == 9 { draft.record[2] } else { 0 })?;
    }
    Ok(())
}

/// Each set of causes, in turn.
pub fn refusals(random: &mut Random, counts: &mut Counts) -> Result<(), String> {
    let length = store_bytes(12, 20) + random.below(60) as usize;
    let mut pair = Pair::new(&bytes(random, length), counts);
    for causes in 0..16 {
        mend(random, &mut pair, causes)?;
    }
    Ok(())
}
