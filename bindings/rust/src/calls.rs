// The functions of include/buttmitrel.h over slices. Each call hands over a slice's own pointer and length, so it reads and writes
// within them; the pointer of an empty slice is not null; a slice lent by &mut overlaps no other.
use crate::live::LiveFeed;
use crate::recorder::Recorder;
use crate::refusal::{value, Refused};

mod c {
    extern "C" {
        pub fn buttmitrel_reply_count(trace: *const u8, trace_len: usize) -> u64;
        pub fn buttmitrel_judge(trace: *const u8, trace_len: usize, report: *mut u8, report_len: usize,
            verdicts: *mut u8, verdicts_len: usize) -> u64;
        pub fn buttmitrel_net_charge(trace: *const u8, trace_len: usize, bounds: *mut i64, bounds_len: usize) -> u64;
        pub fn buttmitrel_cells(volts: *const u16, volts_len: usize, three: *mut u32, three_len: usize) -> u64;
        pub fn buttmitrel_seal(command: u8, word: u16, reply: *mut u8, reply_len: usize) -> u64;
        pub fn buttmitrel_check(reply: *const u8, reply_len: usize) -> u64;
        pub fn buttmitrel_live_begin(cells: u8, idle: u16, rules: *const u8, rules_len: usize, words: *mut u64, words_len: usize,
            totals: *mut u64, totals_len: usize) -> u64;
        pub fn buttmitrel_live_sample(cells: u8, idle: u16, rules: *const u8, rules_len: usize, words: *mut u64, words_len: usize,
            totals: *mut u64, totals_len: usize, tick: u32, current: i16, board: i16, volts: *const u16, volts_len: usize,
            temps: *const i16, temps_len: usize) -> u64;
        pub fn buttmitrel_live_hole(cells: u8, idle: u16, rules: *const u8, rules_len: usize, words: *mut u64, words_len: usize,
            totals: *mut u64, totals_len: usize, last: u32) -> u64;
        pub fn buttmitrel_live_report(cells: u8, idle: u16, rules: *const u8, rules_len: usize, words: *const u64, words_len: usize,
            totals: *const u64, totals_len: usize, report: *mut u8, report_len: usize) -> u64;
        pub fn buttmitrel_recorder_start(cells: u8, number: u32, recorder: *mut u32, recorder_len: usize) -> u64;
        pub fn buttmitrel_recorder_offer(recorder: *mut u32, recorder_len: usize, store: *mut u8, store_len: usize, tick: u32,
            current: i16, board: i16, volts: *const u16, volts_len: usize, temps: *const i16, temps_len: usize) -> u64;
        pub fn buttmitrel_recorder_drain(recorder: *mut u32, recorder_len: usize, store: *const u8, store_len: usize,
            buffer: *mut u8, buffer_len: usize) -> u64;
    }
}

pub fn reply_count(trace: &[u8]) -> Result<u32, Refused> {
    // SAFETY: the pointer and the length are the slice's.
    value(unsafe { c::buttmitrel_reply_count(trace.as_ptr(), trace.len()) })
}

pub fn judge(trace: &[u8], report: &mut [u8], verdicts: &mut [u8]) -> Result<(), Refused> {
    // SAFETY: each pointer goes with the length of its slice, and the two that are written are borrowed alone.
    let answer = unsafe {
        c::buttmitrel_judge(trace.as_ptr(), trace.len(), report.as_mut_ptr(), report.len(), verdicts.as_mut_ptr(), verdicts.len())
    };
    value(answer).map(drop)
}

pub fn net_charge(trace: &[u8], bounds: &mut [i64]) -> Result<(), Refused> {
    // SAFETY: each pointer goes with the length of its slice, and the one that is written is borrowed alone.
    value(unsafe { c::buttmitrel_net_charge(trace.as_ptr(), trace.len(), bounds.as_mut_ptr(), bounds.len()) }).map(drop)
}

pub fn cells(volts: &[u16], three: &mut [u32]) -> Result<(), Refused> {
    // SAFETY: each pointer goes with the length of its slice, and the one that is written is borrowed alone.
    value(unsafe { c::buttmitrel_cells(volts.as_ptr(), volts.len(), three.as_mut_ptr(), three.len()) }).map(drop)
}

pub fn seal(command: u8, word: u16, reply: &mut [u8]) -> Result<(), Refused> {
    // SAFETY: the pointer and the length are the slice's.
    value(unsafe { c::buttmitrel_seal(command, word, reply.as_mut_ptr(), reply.len()) }).map(drop)
}

pub fn check(reply: &[u8]) -> Result<u32, Refused> {
    // SAFETY: the pointer and the length are the slice's.
    value(unsafe { c::buttmitrel_check(reply.as_ptr(), reply.len()) })
}

pub fn live_begin(cells: u8, idle: u16, rules: &[u8], words: &mut [u64], totals: &mut [u64]) -> Result<(), Refused> {
    // SAFETY: each pointer goes with the length of its slice, and the two that are written are borrowed alone.
    let answer = unsafe {
        c::buttmitrel_live_begin(
            cells, idle, rules.as_ptr(), rules.len(), words.as_mut_ptr(), words.len(), totals.as_mut_ptr(), totals.len(),
        )
    };
    value(answer).map(drop)
}

pub fn live_sample(f: &mut LiveFeed, tick: u32, current: i16, board: i16, volts: &[u16], temps: &[i16]) -> Result<(), Refused> {
    let (words, totals) = (&mut f.words, &mut f.totals);
    // SAFETY: each pointer goes with the length of its slice or array, and the two that are written are borrowed alone.
    let answer = unsafe {
        c::buttmitrel_live_sample(
            f.cells, f.idle, f.rules.as_ptr(), f.rules.len(), words.as_mut_ptr(), words.len(), totals.as_mut_ptr(), totals.len(),
            tick, current, board, volts.as_ptr(), volts.len(), temps.as_ptr(), temps.len(),
        )
    };
    value(answer).map(drop)
}

pub fn live_hole(f: &mut LiveFeed, last: u32) -> Result<(), Refused> {
    let (words, totals) = (&mut f.words, &mut f.totals);
    // SAFETY: each pointer goes with the length of its array, and the two that are written are borrowed alone.
    let answer = unsafe {
        c::buttmitrel_live_hole(
            f.cells, f.idle, f.rules.as_ptr(), f.rules.len(), words.as_mut_ptr(), words.len(), totals.as_mut_ptr(), totals.len(), last,
        )
    };
    value(answer).map(drop)
}

pub fn live_report(cells: u8, idle: u16, rules: &[u8], words: &[u64], totals: &[u64], report: &mut [u8]) -> Result<(), Refused> {
    // SAFETY: each pointer goes with the length of its slice, and the one that is written is borrowed alone.
    let answer = unsafe {
        c::buttmitrel_live_report(
            cells, idle, rules.as_ptr(), rules.len(), words.as_ptr(), words.len(), totals.as_ptr(), totals.len(),
            report.as_mut_ptr(), report.len(),
        )
    };
    value(answer).map(drop)
}

pub fn recorder_start(cells: u8, number: u32, record: &mut [u32]) -> Result<(), Refused> {
    // SAFETY: the pointer and the length are the slice's.
    value(unsafe { c::buttmitrel_recorder_start(cells, number, record.as_mut_ptr(), record.len()) }).map(drop)
}

pub fn recorder_offer(r: &mut Recorder, tick: u32, current: i16, board: i16, volts: &[u16], temps: &[i16]) -> Result<u32, Refused> {
    let (record, store) = (&mut r.record, &mut r.store);
    // SAFETY: each pointer goes with the length of its slice or array, and the two that are written are borrowed alone.
    value(unsafe {
        c::buttmitrel_recorder_offer(
            record.as_mut_ptr(), record.len(), store.as_mut_ptr(), store.len(), tick, current, board, volts.as_ptr(), volts.len(),
            temps.as_ptr(), temps.len(),
        )
    })
}

pub fn recorder_drain(record: &mut [u32], store: &[u8], buffer: &mut [u8]) -> Result<u32, Refused> {
    // SAFETY: each pointer goes with the length of its slice, and the two that are written are borrowed alone.
    value(unsafe {
        c::buttmitrel_recorder_drain(
            record.as_mut_ptr(), record.len(), store.as_ptr(), store.len(), buffer.as_mut_ptr(), buffer.len(),
        )
    })
}
