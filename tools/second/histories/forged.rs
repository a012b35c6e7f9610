//! Histories in which somebody else writes to the record and the store between the calls.

use super::arguments::{buffer_length, bytes, sample, spoil_lists, NO_RECORD};
use super::count::Counts;
use super::pair::Pair;
use crate::random::Random;
use crate::recorder::{sample_bytes, store_bytes, Recorder, HOLE_BYTES};

const END: u32 = 4_294_967_295;

/// Cells for the sizes of things, whatever the record says.
fn plain_cells(recorder: &Recorder) -> u32 {
    recorder.cells.clamp(3, 12)
}

/// How many samples a store of this length holds.
fn room(store_len: usize, cells: u32) -> u32 {
    (store_len.saturating_sub(HOLE_BYTES) / sample_bytes(cells)) as u32
}

/// Numbers of samples at and beside what the store holds, and such that the bytes they need are few modulo 2^32.
fn some_number(random: &mut Random, room: u32, cells: u32) -> u32 {
    let wraps = ((1u64 << 32) / sample_bytes(cells) as u64) as u32;
    random.pick(&[0, 1, room.saturating_sub(1), room, room, room + 1, wraps, wraps + 1, END])
}

/// One number of the record, at or beside one of its limits.
fn forge_number(random: &mut Random, pair: &mut Pair) {
    let recorder = pair.recorder();
    let (number, stored) = (recorder.number, recorder.stored);
    let cells = plain_cells(&recorder);
    let any = random.next() as u32;
    let at = random.below(6) as usize;
    let value = match at {
        0 => random.pick(&[0, 2, 3, 4, 11, 12, 13, 255, 256, 259, 268, END]),
        1 => some_number(random, room(pair.store().len(), cells), cells),
        2 => random.pick(&[0, 1, any, END - 2, END - 1, END]),
        3 => random.pick(&[0, 1, 500, 1_023, 1_024, 1_025, END]),
        4 => random.pick(&[0, 1, number.saturating_sub(1), number, number.wrapping_add(1), END]),
        _ => random.pick(&[0, stored.saturating_sub(1), stored, any, 65_534, 65_535, 65_536, END]),
    };
    pair.forge_record(at, value);
}

/// A whole record within its store.
fn forge_record(random: &mut Random, pair: &mut Pair) {
    let cells = random.within(3, 12) as u32;
    let most = room(pair.store().len(), cells);
    let number = random.near_ends(0, i64::from(most)) as u32;
    let stored = random.near_ends(0, i64::from(number)) as u32;
    let any = random.next() as u32;
    let ever = random.pick(&[stored, stored.saturating_sub(1), 0, any % 65_535, any, 65_534, 65_535]);
    let next_tick = random.pick(&[0, 1, any >> 16, any, END - 2, END - 1]);
    let holes = random.near_ends(0, 1_024) as u32;
    for (at, value) in [cells, number, next_tick, holes, stored, ever].into_iter().enumerate() {
        pair.forge_record(at, value);
    }
}

/// The last tick of the last hole, often one that touches the next tick.
fn forge_last_hole(random: &mut Random, pair: &mut Pair) {
    let recorder = pair.recorder();
    let end = 8 * recorder.holes.clamp(1, 1_024) as usize;
    let next = recorder.next_tick;
    let any = random.next() as u32;
    let last = random.pick(&[next.wrapping_sub(1), next.wrapping_sub(1), next, next.wrapping_sub(2), 0, any, END]);
    if end <= pair.store().len() {
        pair.forge_store(end - 4, &last.to_le_bytes());
    }
}

fn forge_bytes(random: &mut Random, pair: &mut Pair) {
    let length = pair.store().len();
    let at = random.below(length as u64 + 1) as usize;
    let count = (length - at).min(random.pick(&[1, 8, 100, 20_000]));
    let bytes = bytes(random, count);
    pair.forge_store(at, &bytes);
}

fn forge(random: &mut Random, pair: &mut Pair) {
    match random.below(12) {
        0..=3 => forge_number(random, pair),
        4..=7 => forge_record(random, pair),
        8..=10 => forge_last_hole(random, pair),
        _ => forge_bytes(random, pair),
    }
}

/// Lends the store whole, or as long as the record needs, or nearly so.
fn lend_store(random: &mut Random, pair: &mut Pair) {
    let recorder = pair.recorder();
    let length = pair.store().len();
    let needed = store_bytes(plain_cells(&recorder), recorder.number);
    let lent = random.pick(&[length, length, length, length, needed, needed, needed - 1, needed + 1, 8_191, 0]);
    pair.lend_store(lent.min(length));
}

fn some_tick(random: &mut Random, next: u32) -> u32 {
    let any = random.next() as u32;
    random.pick(&[
        next,
        next,
        next,
        next.saturating_add(1),
        next.saturating_add(9),
        next.saturating_sub(1),
        0,
        any,
        END - 1,
        END,
    ])
}

fn offer(random: &mut Random, pair: &mut Pair) -> Result<(), String> {
    let recorder = pair.recorder();
    let tick = some_tick(random, recorder.next_tick);
    let mut sample = sample(random, plain_cells(&recorder) as usize, tick);
    if random.once_in(10) {
        spoil_lists(random, &mut sample);
    }
    pair.offer(&sample).map(|_| ())
}

fn drain(random: &mut Random, pair: &mut Pair) -> Result<(), String> {
    let recorder = pair.recorder();
    let most = room(pair.store().len(), 3);
    let length = buffer_length(random, plain_cells(&recorder), recorder.stored.min(most));
    pair.drain(length).map(|_| ())
}

fn start(random: &mut Random, pair: &mut Pair) -> Result<(), String> {
    let cells = random.pick(&[0, 2, 3, 7, 12, 13, 255]);
    let number = some_number(random, room(pair.store().len(), 5), 5);
    pair.start(cells, number).map(|_| ())
}

fn store_length(random: &mut Random) -> usize {
    match random.below(40) {
        0 => HOLE_BYTES + 66_000 * 20,
        1..=4 => random.pick(&[0, 7, 8_191, 8_192, 8_193]),
        _ => HOLE_BYTES + random.below(1_500) as usize,
    }
}

/// Forged calls of all kinds.
pub fn forged(random: &mut Random, counts: &mut Counts) -> Result<(), String> {
    let length = store_length(random);
    let mut pair = Pair::new(&bytes(random, length), counts);
    forge_record(random, &mut pair);
    let most = if length > 100_000 { 20 } else { 200 };
    for _ in 0..random.within(1, most) {
        while random.once_in(2) {
            forge(random, &mut pair);
        }
        lend_store(random, &mut pair);
        pair.lend_record(if random.once_in(30) { random.pick(&NO_RECORD) } else { 6 });
        match random.below(20) {
            0 => start(random, &mut pair)?,
            1..=6 => drain(random, &mut pair)?,
            _ => offer(random, &mut pair)?,
        }
    }
    Ok(())
}
