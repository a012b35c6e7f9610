// The recorders that are measured, and both at once, which compares them.
use crate::plain_recorder;
use crate::trace_bytes::Sample;
use std::process::exit;

extern "C" {
    fn buttmitrel_recorder_start(cells: u8, number: u32, recorder: *mut u32, recorder_len: usize) -> u64;
    fn buttmitrel_recorder_offer(
        recorder: *mut u32,
        recorder_len: usize,
        store: *mut u8,
        store_len: usize,
        tick: u32,
        current: i16,
        board: i16,
        volts: *const u16,
        volts_len: usize,
        temps: *const i16,
        temps_len: usize,
    ) -> u64;
    fn buttmitrel_recorder_drain(
        recorder: *mut u32,
        recorder_len: usize,
        store: *mut u8,
        store_len: usize,
        buffer: *mut u8,
        buffer_len: usize,
    ) -> u64;
}

// The calls answer their value, or the refusal's number and place.
pub trait Recorder {
    fn start(cells: u8, number: u32, record: &mut [u32]) -> u64;
    // The sample's own tick is not looked at.
    fn offer(record: &mut [u32], store: &mut [u8], tick: u32, s: &Sample) -> u64;
    fn drain(record: &mut [u32], store: &mut [u8], buffer: &mut [u8]) -> u64;
}

pub struct Proved;
pub struct Plain;
pub struct Both;

impl Recorder for Proved {
    fn start(cells: u8, number: u32, record: &mut [u32]) -> u64 {
        unsafe { buttmitrel_recorder_start(cells, number, record.as_mut_ptr(), record.len()) }
    }

    fn offer(record: &mut [u32], store: &mut [u8], tick: u32, s: &Sample) -> u64 {
        let (r, k, m, n) = (record.as_mut_ptr(), record.len(), store.as_mut_ptr(), store.len());
        let (v, vs, c, cs) = (s.volts.as_ptr(), s.volts.len(), s.temps.as_ptr(), s.temps.len());
        unsafe { buttmitrel_recorder_offer(r, k, m, n, tick, s.current, s.board, v, vs, c, cs) }
    }

    fn drain(record: &mut [u32], store: &mut [u8], buffer: &mut [u8]) -> u64 {
        let (r, k, m, n) = (record.as_mut_ptr(), record.len(), store.as_mut_ptr(), store.len());
        unsafe { buttmitrel_recorder_drain(r, k, m, n, buffer.as_mut_ptr(), buffer.len()) }
    }
}

impl Recorder for Plain {
    fn start(cells: u8, number: u32, record: &mut [u32]) -> u64 {
        plain_recorder::start(cells, number, record)
    }

    fn offer(record: &mut [u32], store: &mut [u8], tick: u32, s: &Sample) -> u64 {
        plain_recorder::offer(record, store, tick, s.current, s.board, &s.volts, &s.temps)
    }

    fn drain(record: &mut [u32], store: &mut [u8], buffer: &mut [u8]) -> u64 {
        plain_recorder::drain(record, store, buffer)
    }
}

fn compare<T: PartialEq>(call: &str, proved: T, plain: T) {
    if proved != plain {
        eprintln!("bench: the recorders differ at {call}");
        exit(1);
    }
}

// The proved one works on what is lent, the plain one on copies, and all of it is compared.
impl Recorder for Both {
    fn start(cells: u8, number: u32, record: &mut [u32]) -> u64 {
        let mut r = record.to_vec();
        let (proved, plain) = (Proved::start(cells, number, record), Plain::start(cells, number, &mut r));
        compare("start", (proved, &*record), (plain, &r));
        proved
    }

    fn offer(record: &mut [u32], store: &mut [u8], tick: u32, s: &Sample) -> u64 {
        let (mut r, mut m) = (record.to_vec(), store.to_vec());
        let (proved, plain) = (Proved::offer(record, store, tick, s), Plain::offer(&mut r, &mut m, tick, s));
        compare("offer", (proved, &*record, &*store), (plain, &r, &m));
        proved
    }

    fn drain(record: &mut [u32], store: &mut [u8], buffer: &mut [u8]) -> u64 {
        let (mut r, mut m, mut b) = (record.to_vec(), store.to_vec(), buffer.to_vec());
        let (proved, plain) = (Proved::drain(record, store, buffer), Plain::drain(&mut r, &mut m, &mut b));
        compare("drain", (proved, &*record, &*store, &*buffer), (plain, &r, &m, &b));
        proved
    }
}
