//! The model and the library side by side, each with a record and a store of its own, which are alike after every call.

use super::count::Counts;
use crate::answer::{answer, in_words};
use crate::lent::Lent;
use crate::library;
use crate::recorder::{self, Recorder, MOST_HOLES};
use crate::trace::Sample;

/// What a caller keeps.
#[derive(Clone)]
struct Kept {
    record: Lent<u32>,
    store: Lent<u8>,
}

pub struct Pair<'a> {
    ours: Kept,
    theirs: Kept,
    /// The record before the call.
    before: Recorder,
    calls: u64,
    forged: bool,
    pub counts: &'a mut Counts,
}

impl<'a> Pair<'a> {
    pub fn new(store: &[u8], counts: &'a mut Counts) -> Pair<'a> {
        let mut record = Lent::patterned(8);
        record.lend(6);
        let before = Recorder::read(record.content());
        let kept = Kept { record, store: Lent::new(store) };
        Pair { ours: kept.clone(), theirs: kept, before, calls: 0, forged: false, counts }
    }

    pub fn recorder(&self) -> Recorder {
        Recorder::read(self.ours.record.all())
    }

    /// The bytes between the store's margins, lent or not.
    pub fn store(&self) -> &[u8] {
        self.ours.store.all()
    }

    pub fn lend_record(&mut self, length: usize) {
        self.ours.record.lend(length);
        self.theirs.record.lend(length);
    }

    pub fn lend_store(&mut self, length: usize) {
        self.ours.store.lend(length);
        self.theirs.store.lend(length);
    }

    /// Writes a number of the record as somebody else.
    pub fn forge_record(&mut self, at: usize, value: u32) {
        self.forged = true;
        self.ours.record.all_mut()[at] = value;
        self.theirs.record.all_mut()[at] = value;
    }

    /// Writes to the store as somebody else.
    pub fn forge_store(&mut self, at: usize, bytes: &[u8]) {
        self.forged = true;
        self.ours.store.all_mut()[at..at + bytes.len()].copy_from_slice(bytes);
        self.theirs.store.all_mut()[at..at + bytes.len()].copy_from_slice(bytes);
    }

    /// Counts the call, and compares the answers, the records, the stores and what else was found to differ.
    fn compare(&mut self, call: &str, ours: u64, theirs: u64, other: Option<String>) -> Result<(), String> {
        self.calls += 1;
        self.counts.calls += 1;
        self.counts.forged += u64::from(self.forged);
        let record = self.ours.record.difference(&self.theirs.record).map(|place| format!("record at {}", place));
        let store = self.ours.store.difference(&self.theirs.store).map(|place| format!("store at {}", place));
        let places: Vec<String> = [record, store, other].into_iter().flatten().collect();
        if ours == theirs && places.is_empty() {
            return Ok(());
        }
        Err(format!(
            "call {}, {}, record of {}, store of {}, {:?}\nsecond program: {}\nlibrary: {}\nfirst difference: {}",
            self.calls,
            call,
            self.ours.record.length(),
            self.ours.store.length(),
            self.before,
            in_words(ours),
            in_words(theirs),
            if places.is_empty() { "the answer alone".to_string() } else { places.join("; ") }
        ))
    }

    /// What is wrong after the last call although both agree.
    pub fn wrong(&self, what: String) -> String {
        format!("after call {}: {}", self.calls, what)
    }

    /// That both answered this refusal at this place, or accepted where the number is 0.
    pub fn expect(&self, answer: u64, number: u64, place: u32) -> Result<(), String> {
        let right = if number == 0 { answer >> 32 == 0 } else { answer == number << 32 | u64::from(place) };
        if right {
            return Ok(());
        }
        Err(self.wrong(format!("both answered {} where {} at {} is due", in_words(answer), number, place)))
    }

    pub fn start(&mut self, cells: u8, number: u32) -> Result<u64, String> {
        self.before = self.recorder();
        let ours = answer(recorder::start(cells, number, self.ours.record.content_mut()).map(|_| 0));
        let theirs = library::recorder_start(cells, number, &mut self.theirs.record);
        self.compare("start", ours, theirs, None)?;
        self.counts.starts[(ours >> 32) as usize] += 1;
        Ok(ours)
    }

    pub fn offer(&mut self, sample: &Sample) -> Result<u64, String> {
        self.before = self.recorder();
        let offered = recorder::offer(self.ours.record.content_mut(), self.ours.store.content_mut(), sample);
        let ours = answer(offered.map(|offered| offered as u32));
        let theirs = library::recorder_offer(&mut self.theirs.record, &mut self.theirs.store, sample);
        let written = if theirs.is_none() { Some("the lent readings".to_string()) } else { None };
        let call = format!("offer of tick {}, {} volts, {} temps", sample.tick, sample.volts.len(), sample.temps.len());
        self.compare(&call, ours, theirs.unwrap_or(ours), written)?;
        self.counts.offers[(ours >> 32) as usize] += 1;
        self.counts.stored += u64::from(ours == 0);
        self.counts.dropped += u64::from(ours == 1);
        let hole = ours == 1 || ours == 0 && sample.tick > self.before.next_tick;
        self.counts.joined += u64::from(hole && self.before.holes == MOST_HOLES);
        Ok(ours)
    }

    /// The answer and what is in the buffer then.
    pub fn drain(&mut self, buffer_len: usize) -> Result<(u64, Vec<u8>), String> {
        self.before = self.recorder();
        let mut our_buffer = Lent::patterned(buffer_len);
        let mut their_buffer = our_buffer.clone();
        let kept = &mut self.ours;
        let drained = recorder::drain(kept.record.content_mut(), kept.store.content(), our_buffer.content_mut());
        let ours = answer(drained);
        let kept = &mut self.theirs;
        let theirs = library::recorder_drain(&mut kept.record, &mut kept.store, &mut their_buffer);
        let place = our_buffer.difference(&their_buffer).map(|place| format!("buffer at {}", place));
        self.compare(&format!("drain into {} bytes", buffer_len), ours, theirs, place)?;
        self.counts.drains[(ours >> 32) as usize] += 1;
        self.counts.drained += if ours >> 32 == 0 { ours } else { 0 };
        Ok((ours, our_buffer.content().to_vec()))
    }
}
