//! Histories from a fresh start in which nobody else writes.

use super::arguments::{buffer_length, bytes, sample, spoil_lists, LAST_TICK, NO_RECORD};
use super::count::Counts;
use super::pair::Pair;
use super::whole::{self, Journal};
use crate::random::Random;
use crate::recorder::{sample_bytes, store_bytes, MOST_EVER, MOST_HOLES};
use crate::trace::Sample;

/// How often things happen: once in so many steps.
#[derive(Clone, Copy)]
struct Mood {
    wrong: u64,
    drain: u64,
    /// An offer to a full store, and no drain.
    over: u64,
    gap: u64,
    /// A gap of any size; 0 for none, where a history must not come to the last tick.
    giant: u64,
}

struct Fresh<'a> {
    pair: Pair<'a>,
    cells: u8,
    number: u32,
    journal: Journal,
    /// The last offer, if it was refused with 17.
    refused: Option<Sample>,
}

fn some_mood(random: &mut Random) -> Mood {
    Mood {
        wrong: random.pick(&[4, 10, 50]),
        drain: random.pick(&[2, 5, 20, 100]),
        over: random.pick(&[1, 1, 2, 10]),
        gap: random.pick(&[1, 2, 5, 30, 1_000]),
        giant: random.pick(&[20, 200, 100_000]),
    }
}

/// A number of samples, now and then a big one.
fn some_number(random: &mut Random) -> u32 {
    match random.below(60) {
        0 => random.pick(&[1_000, 3_000, 65_535, 65_536, 66_000]),
        1..=24 => random.pick(&[0, 1, 2, 3]),
        25..=34 => random.within(4, 200) as u32,
        _ => random.within(4, 30) as u32,
    }
}

impl<'a> Fresh<'a> {
    /// Starts a recorder over a store with anything in it, after some refused starts.
    fn start(random: &mut Random, number: u32, counts: &'a mut Counts) -> Result<Fresh<'a>, String> {
        let cells = random.near_ends(3, 12) as u8;
        let length = store_bytes(u32::from(cells), number) + random.pick(&[0, 0, 1, 7, 300]);
        let store = if random.once_in(2) { vec![0; length] } else { bytes(random, length) };
        let pair = Pair::new(&store, counts);
        let mut fresh = Fresh { pair, cells, number, journal: Journal::default(), refused: None };
        while random.once_in(3) {
            fresh.wrong_start(random)?;
        }
        fresh.pair.start(cells, number)?;
        Ok(fresh)
    }

    /// A start that is refused with 3, with 15 or for both.
    fn wrong_start(&mut self, random: &mut Random) -> Result<(), String> {
        let which = random.below(3);
        let cells = if which == 0 { self.cells } else { random.pick(&[0, 1, 2, 13, 14, 131, 255]) };
        let length = if which == 1 { 6 } else { random.pick(&NO_RECORD) };
        self.pair.lend_record(length);
        let answer = self.pair.start(cells, self.number)?;
        self.pair.lend_record(6);
        self.pair.counts.starts_of_both += u64::from(which == 2);
        self.pair.expect(answer, if which == 0 { 15 } else { 3 }, 0)
    }

    fn offer(&mut self, sample: Sample) -> Result<u64, String> {
        let answer = self.pair.offer(&sample)?;
        if answer == 0 {
            self.journal.keep(&sample);
        }
        self.refused = if answer >> 32 == 17 { Some(sample) } else { None };
        Ok(answer)
    }

    fn drain(&mut self, length: usize) -> Result<(), String> {
        let (answer, buffer) = self.pair.drain(length)?;
        if answer >> 32 == 0 {
            let written = answer as usize * sample_bytes(u32::from(self.cells));
            self.journal.drained.extend_from_slice(&buffer[..written]);
        }
        Ok(())
    }

    fn drain_some(&mut self, random: &mut Random) -> Result<(), String> {
        let length = buffer_length(random, u32::from(self.cells), self.pair.recorder().stored);
        self.drain(length)
    }

    /// An offer or a drain.
    fn call(&mut self, random: &mut Random, tick: u32) -> Result<(), String> {
        if random.once_in(3) {
            return self.drain_some(random);
        }
        let sample = sample(random, usize::from(self.cells), tick);
        self.offer(sample).map(|_| ())
    }

    /// A call with something wrong, or with another length of the store.
    fn wrong(&mut self, random: &mut Random) -> Result<(), String> {
        let next = self.pair.recorder().next_tick;
        let needed = store_bytes(u32::from(self.cells), self.number);
        let mut sample = sample(random, usize::from(self.cells), next);
        match random.below(7) {
            0 => sample.tick = next.saturating_sub(random.pick(&[1, 1, 2, 5, 4_294_967_295])),
            1 => sample.tick = 4_294_967_295,
            2 => spoil_lists(random, &mut sample),
            3 => {
                self.pair.lend_record(random.pick(&NO_RECORD));
                self.call(random, next)?;
                self.pair.lend_record(6);
            }
            4 => {
                self.pair.lend_store(random.pick(&[needed - 1, needed - 1, 8_191, 0]));
                self.call(random, next)?;
                self.pair.lend_store(needed);
            }
            5 => self.pair.lend_store(random.within(needed as i64, self.pair.store().len() as i64) as usize),
            _ => return self.wrong_start(random),
        }
        self.offer(sample).map(|_| ())
    }

    /// An offer at the next tick or after a gap, a drain, or something wrong.
    fn step(&mut self, random: &mut Random, mood: &Mood) -> Result<(), String> {
        if random.once_in(mood.wrong) {
            return self.wrong(random);
        }
        let recorder = self.pair.recorder();
        let full = recorder.stored == recorder.number;
        if random.once_in(mood.drain) || full && !random.once_in(mood.over) {
            return self.drain_some(random);
        }
        let next = u64::from(recorder.next_tick);
        let tick = (next + gap(random, mood, next)).min(LAST_TICK) as u32;
        let sample = sample(random, usize::from(self.cells), tick);
        self.offer(sample).map(|_| ())
    }

    /// A drain, and then the sample again that was refused with 17.
    fn offer_again(&mut self, random: &mut Random) -> Result<(), String> {
        if let Some(sample) = self.refused.take() {
            self.drain_some(random)?;
            let answer = self.offer(sample)?;
            self.pair.counts.again += u64::from(answer == 0);
        }
        Ok(())
    }

    fn steps(&mut self, random: &mut Random, count: u64) -> Result<(), String> {
        let mut mood = some_mood(random);
        for _ in 0..count {
            if random.once_in(30) {
                mood = some_mood(random);
            }
            self.step(random, &mood)?;
            if random.once_in(2) {
                self.offer_again(random)?;
            }
        }
        Ok(())
    }

    /// Drains all and looks at the whole of it.
    fn finish(mut self, random: &mut Random) -> Result<(), String> {
        while self.pair.recorder().stored > 0 {
            self.drain_some(random)?;
        }
        let recorder = self.pair.recorder();
        whole::check(random, &recorder, self.pair.store(), &self.journal).map_err(|what| self.pair.wrong(what))?;
        let counts = self.pair.counts;
        counts.traces += 1;
        counts.most_holes += u64::from(recorder.holes == MOST_HOLES);
        counts.most_ever += u64::from(recorder.ever == MOST_EVER);
        Ok(())
    }
}

/// How many ticks an offer skips.
fn gap(random: &mut Random, mood: &Mood, next: u64) -> u64 {
    if mood.giant != 0 && random.once_in(mood.giant) {
        return match random.below(2) {
            0 => LAST_TICK.saturating_sub(next + random.below(4)),
            _ => 1 << random.within(3, 31),
        };
    }
    if random.once_in(mood.gap) {
        random.within(1, 5) as u64
    } else {
        0
    }
}

/// Calls of all kinds.
pub fn mixed(random: &mut Random, counts: &mut Counts) -> Result<(), String> {
    let number = some_number(random);
    let mut fresh = Fresh::start(random, number, counts)?;
    let count = if number < 200 && random.once_in(40) { random.within(1_000, 5_000) } else { random.within(1, 200) };
    fresh.steps(random, count as u64)?;
    fresh.finish(random)
}

/// Calls until 1,024 holes stand, and then more.
pub fn to_most_holes(random: &mut Random, counts: &mut Counts) -> Result<(), String> {
    let number = random.pick(&[1, 1, 2, 3, 10, 40]);
    let mut fresh = Fresh::start(random, number, counts)?;
    let gap = random.pick(&[1, 2, 4]);
    let mood = Mood { wrong: 60, drain: 10, over: random.pick(&[1, 2]), gap, giant: 0 };
    while fresh.pair.recorder().holes < MOST_HOLES {
        fresh.step(random, &mood)?;
    }
    let mood = Mood { giant: 40, wrong: 10, ..mood };
    for _ in 0..random.within(5, 100) {
        fresh.step(random, &mood)?;
        fresh.offer_again(random)?;
    }
    fresh.finish(random)
}

/// Calls until 65,535 samples were stored, and then more.
pub fn to_most_ever(random: &mut Random, counts: &mut Counts) -> Result<(), String> {
    let number = random.pick(&[1, 2, 7, 50, 255, 256, 600]);
    let mut fresh = Fresh::start(random, number, counts)?;
    let mood = Mood { wrong: 1_000, drain: 300, over: 1_000, gap: 1_000, giant: 0 };
    while fresh.pair.recorder().ever < MOST_EVER {
        fresh.step(random, &mood)?;
    }
    let count = random.within(5, 200) as u64;
    fresh.steps(random, count)?;
    fresh.finish(random)
}
