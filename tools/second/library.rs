//! The proved library, linked as a static library.

use crate::lent::Lent;
use crate::trace::Sample;

extern "C" {
    fn buttmitrel_judge(
        trace: *const u8,
        trace_len: usize,
        report: *mut u8,
        report_len: usize,
        verdicts: *mut u8,
        verdicts_len: usize,
    ) -> u64;
    fn buttmitrel_cells(volts: *const u16, volts_len: usize, three: *mut u32, three_len: usize) -> u64;
    fn buttmitrel_recorder_start(cells: u8, number: u32, recorder: *mut u32, recorder_len: usize) -> u64;
    fn buttmitrel_recorder_offer(
        recorder: *mut u32,
        recorder_len: usize,
        store: *mut u8,
        store_len: usize,
        tick: u32,
        current: i16,
        board: i16,
        volts: *const u16,
        volts_len: usize,
        temps: *const i16,
        temps_len: usize,
    ) -> u64;
    fn buttmitrel_recorder_drain(
        recorder: *mut u32,
        recorder_len: usize,
        store: *mut u8,
        store_len: usize,
        buffer: *mut u8,
        buffer_len: usize,
    ) -> u64;
}

/// Bytes kept free on both sides of a lent buffer, to see a write outside it.
pub const MARGIN: usize = 16;

/// A buffer with its margins, filled with a pattern.
pub fn patterned(length: usize) -> Vec<u8> {
    (0..length + 2 * MARGIN).map(|i| (i * 37 + 11) as u8 | 8).collect()
}

/// The call's answer and what both buffers hold afterwards, margins included.
pub fn call(trace: &[u8], report_len: usize, verdicts_len: usize) -> (u64, Vec<u8>, Vec<u8>) {
    let mut lent = trace.to_vec();
    let mut report = patterned(report_len);
    let mut verdicts = patterned(verdicts_len);
    // Both pointers stand MARGIN bytes inside buffers of length + 2 * MARGIN.
    let answer = unsafe {
        buttmitrel_judge(
            lent.as_mut_ptr(),
            lent.len(),
            report.as_mut_ptr().add(MARGIN),
            report_len,
            verdicts.as_mut_ptr().add(MARGIN),
            verdicts_len,
        )
    };
    assert!(lent == trace, "the call wrote to the lent trace");
    (answer, report, verdicts)
}

pub fn recorder_start(cells: u8, number: u32, recorder: &mut Lent<u32>) -> u64 {
    // A lent list is as long as it says, and stands at least MARGIN elements inside its own memory.
    unsafe { buttmitrel_recorder_start(cells, number, recorder.pointer(), recorder.length()) }
}

/// The readings' lists are lent with margins too; the answer is None if the call wrote to them.
pub fn recorder_offer(recorder: &mut Lent<u32>, store: &mut Lent<u8>, sample: &Sample) -> Option<u64> {
    let mut volts = Lent::new(&sample.volts);
    let mut temps = Lent::new(&sample.temps);
    // As above, of all four lists.
    let answer = unsafe {
        buttmitrel_recorder_offer(
            recorder.pointer(),
            recorder.length(),
            store.pointer(),
            store.length(),
            sample.tick,
            sample.current,
            sample.board,
            volts.pointer(),
            volts.length(),
            temps.pointer(),
            temps.length(),
        )
    };
    let unwritten = volts == Lent::new(&sample.volts) && temps == Lent::new(&sample.temps);
    unwritten.then_some(answer)
}

pub fn recorder_drain(recorder: &mut Lent<u32>, store: &mut Lent<u8>, buffer: &mut Lent<u8>) -> u64 {
    // As above, of all three lists.
    unsafe {
        buttmitrel_recorder_drain(
            recorder.pointer(),
            recorder.length(),
            store.pointer(),
            store.length(),
            buffer.pointer(),
            buffer.length(),
        )
    }
}

pub fn cells(volts: &mut Lent<u16>, three: &mut Lent<u32>) -> u64 {
    // As above, of both lists.
    unsafe { buttmitrel_cells(volts.pointer(), volts.length(), three.pointer(), three.length()) }
}
