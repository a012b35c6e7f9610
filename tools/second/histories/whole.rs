//! What a fresh history comes to once all is drained: every tick in one sample or one hole, and an accepted trace.

use crate::bytes::u32_at;
use crate::compare::with_lengths;
use crate::fast;
use crate::generate;
use crate::random::Random;
use crate::recorder::Recorder;
use crate::trace::Sample;

#[derive(Default)]
pub struct Journal {
    /// Samples that were answered with 0, as offered.
    kept: Vec<u8>,
    ticks: Vec<u32>,
    /// What the drains wrote.
    pub drained: Vec<u8>,
}

impl Journal {
    pub fn keep(&mut self, sample: &Sample) {
        sample.encode(&mut self.kept);
        self.ticks.push(sample.tick);
    }
}

/// Whether the kept samples and the holes cover each tick below the next one exactly once.
fn cover_once(recorder: &Recorder, holes: &[u8], ticks: &[u32]) -> bool {
    let mut parts: Vec<(u64, u64)> = ticks.iter().map(|tick| (u64::from(*tick), u64::from(*tick))).collect();
    parts.extend(holes.chunks_exact(8).map(|hole| (u64::from(u32_at(hole, 0)), u64::from(u32_at(hole, 4)))));
    parts.sort_unstable();
    let mut next = 0;
    for (first, last) in parts {
        if first != next || last < first {
            return false;
        }
        next = last + 1;
    }
    next == u64::from(recorder.next_tick)
}

/// Whether no two holes touch.
fn apart(holes: &[u8]) -> bool {
    let edges: Vec<u32> = holes.chunks_exact(4).map(|tick| u32_at(tick, 0)).collect();
    edges.chunks_exact(2).zip(edges.chunks_exact(2).skip(1)).all(|(one, other)| one[1] + 1 < other[0])
}

/// A head of that n, rules, the holes, no replies and the drained samples.
fn trace(random: &mut Random, recorder: &Recorder, holes: &[u8], journal: &Journal) -> Vec<u8> {
    let empty = generate::head(random, recorder.cells as u8).encode();
    let mut out = empty[..empty.len() - 6].to_vec();
    out.extend_from_slice(&(recorder.holes as u16).to_le_bytes());
    out.extend_from_slice(holes);
    out.extend_from_slice(&[0, 0]);
    out.extend_from_slice(&(journal.ticks.len() as u16).to_le_bytes());
    out.extend_from_slice(&journal.drained);
    out
}

pub fn check(random: &mut Random, recorder: &Recorder, store: &[u8], journal: &Journal) -> Result<(), String> {
    let holes = &store[..8 * recorder.holes as usize];
    if journal.drained != journal.kept {
        let alike = journal.drained.iter().zip(&journal.kept).take_while(|(one, other)| one == other).count();
        return Err(format!("what was drained is not what was kept, from byte {} on", alike));
    }
    if !cover_once(recorder, holes, &journal.ticks) {
        return Err(format!("the ticks below {} are not covered once", recorder.next_tick));
    }
    if !apart(holes) {
        return Err("two holes touch".to_string());
    }
    let trace = trace(random, recorder, holes, journal);
    match fast::judge(&trace, 187, 0) {
        Err(refusal) => return Err(format!("the trace is refused {} at {}", refusal.number, refusal.place)),
        Ok(judged) if judged.totals.ticks != recorder.next_tick => {
            return Err(format!("the trace has {} ticks and not {}", judged.totals.ticks, recorder.next_tick));
        }
        Ok(_) => {}
    }
    match with_lengths(&trace, 187, 0) {
        None => Ok(()),
        Some(difference) => {
            Err(format!("the trace: {}\n{}: {}", difference.ours, difference.between, difference.theirs))
        }
    }
}
