// The proved judge beside two plain ones: the same captures, in the same run. Stops if they differ in a byte. Then a sample of the
// live feed, and the proved recorder beside a plain one.
mod captures;
mod odd_calls;
#[path = "plain_judge.rs"]
mod plain_judge;
mod plain_recorder;
mod recorder_rows;
mod recorders;
mod states_as_bounds;
#[path = "../trace/bytes.rs"]
mod trace_bytes;

use captures::{capture, one_hole, sample, with_replies, CELLS};
use plain_judge::{judge, judge_with, reply_count};
use states_as_bounds::Bounds;
use std::hint::black_box;
use std::time::Instant;
use trace_bytes::{Sample, Trace};

extern "C" {
    fn buttmitrel_judge(
        trace: *const u8,
        trace_len: usize,
        report: *mut u8,
        report_len: usize,
        verdicts: *mut u8,
        verdicts_len: usize,
    ) -> u64;
    fn buttmitrel_live_begin(
        cells: u8,
        idle: u16,
        rules: *const u8,
        rules_len: usize,
        words: *mut u64,
        words_len: usize,
        totals: *mut u64,
        totals_len: usize,
    ) -> u64;
    fn buttmitrel_live_sample(
        cells: u8,
        idle: u16,
        rules: *const u8,
        rules_len: usize,
        words: *mut u64,
        words_len: usize,
        totals: *mut u64,
        totals_len: usize,
        tick: u32,
        current: i16,
        board: i16,
        volts: *const u16,
        volts_len: usize,
        temps: *const i16,
        temps_len: usize,
    ) -> u64;
}

// They answer 0 for accepted, else the refusal's number and place.
type Judge = fn(&[u8], &mut [u8], &mut [u8]) -> u64;

// In the order of the table, and so are the seconds a call.
const JUDGES: [Judge; 3] = [proved, with_bounds, with_sets];
type Times = [f64; 3];

fn proved(trace: &[u8], report: &mut [u8], verdicts: &mut [u8]) -> u64 {
    let (r, v) = (report.as_mut_ptr(), verdicts.as_mut_ptr());
    unsafe { buttmitrel_judge(trace.as_ptr(), trace.len(), r, report.len(), v, verdicts.len()) }
}

#[inline(never)]
fn with_bounds(trace: &[u8], report: &mut [u8], verdicts: &mut [u8]) -> u64 {
    answer(judge_with::<Bounds>(trace, report, verdicts))
}

#[inline(never)]
fn with_sets(trace: &[u8], report: &mut [u8], verdicts: &mut [u8]) -> u64 {
    answer(judge(trace, report, verdicts))
}

fn answer(judged: Result<(), (u8, u32)>) -> u64 {
    match judged {
        Ok(()) => 0,
        Err((number, place)) => (number as u64) << 32 | place as u64,
    }
}

// Seconds a call.
fn mean(calls: u32, mut run: impl FnMut() -> u64) -> f64 {
    let start = Instant::now();
    for _ in 0..calls {
        black_box(run());
    }
    start.elapsed().as_secs_f64() / calls as f64
}

// The least times of a second of turns, each judge in its turn.
fn measure(name: &str, trace: &[u8]) -> Times {
    let n = reply_count(trace);
    // Both on the heap: the shortest times of the proved judge change with the place of a buffer on the stack.
    let answers = JUDGES.map(|judge| {
        let (mut report, mut verdicts) = (vec![0xaa; 187], vec![0xbb; n]);
        (judge(trace, &mut report, &mut verdicts), report, verdicts)
    });
    if answers.iter().any(|other| *other != answers[0]) {
        eprintln!("bench: the judges differ at {name}");
        for (answer, report, verdicts) in answers {
            eprintln!("{answer:#x}\n{report:02x?}\n{verdicts:02x?}");
        }
        std::process::exit(1);
    }
    let [(answer, mut report, mut verdicts), ..] = answers;
    assert!(answer == 0, "{name}: refused");
    assert!(n == 0 || (1..=6).all(|verdict| verdicts.contains(&verdict)), "{name}: a verdict never came up");
    let mut time = |judge: Judge, calls| mean(calls, || judge(black_box(trace), &mut report, &mut verdicts));
    let calls = (0.002 / time(with_sets, 1)).clamp(1.0, 10_000.0) as u32;
    let mut least = [f64::INFINITY; 3];
    let start = Instant::now();
    while start.elapsed().as_secs_f64() < 1.0 {
        for (least, judge) in least.iter_mut().zip(JUDGES) {
            *least = least.min(time(judge, calls));
        }
    }
    least
}

// Seconds a live sample, its checks included: the least of many feeds of a thousand samples.
fn live_sample() -> f64 {
    let t = capture(0);
    let bytes = t.bytes();
    let (rules, samples): (&[u8], Vec<Sample>) = (&bytes[6..166], (0..1000).map(sample).collect());
    let (mut words, mut totals) = ([0u64; 80], [0u64; 4]);
    let mut least = f64::INFINITY;
    for _ in 0..500 {
        let (w, n) = (words.as_mut_ptr(), totals.as_mut_ptr());
        assert!(unsafe { buttmitrel_live_begin(CELLS, t.idle, rules.as_ptr(), 160, w, 80, n, 4) } == 0);
        let start = Instant::now();
        for s in &samples {
            let (v, c) = (s.volts.as_ptr(), s.temps.as_ptr());
            let answer = unsafe {
                let (r, k) = (rules.as_ptr(), CELLS as usize);
                buttmitrel_live_sample(CELLS, t.idle, r, 160, w, 80, n, 4, s.tick, s.current, s.board, v, k, c, k)
            };
            assert!(answer == 0);
        }
        least = least.min(start.elapsed().as_secs_f64() / samples.len() as f64);
    }
    assert!(totals[3] == 1000);
    least
}

fn text(seconds: f64) -> String {
    match seconds {
        s if s >= 1e-3 => format!("{:.2} ms", s * 1e3),
        s => format!("{:.2} µs", s * 1e6),
    }
}

fn line(name: &str, t: &Trace) -> Times {
    let times = measure(name, &t.bytes());
    let ([proved, bounds, sets], [p, b, s]) = (times, times.map(text));
    let rate = match t.samples.len() {
        0 => String::new(),
        n => format!("{:.2} million", n as f64 / proved / 1e6),
    };
    println!("| {name} | {p} | {b} | {s} | {:.2} | {:.2} | {rate} |", proved / bounds, proved / sets);
    times
}

// What each judge's time on one capture is over that on another.
fn compare(what: &str, times: Times, others: Times, scale: f64) {
    let [p, b, s] = [0, 1, 2].map(|k| times[k] / others[k] * scale);
    println!("{what}: proved {p:.2}, plain {b:.2} with two numbers and {s:.2} with sets.");
}

fn main() {
    println!("| capture | proved | plain, two numbers | plain, sets | ratio, two numbers | ratio, sets | samples a second, proved |");
    println!("|--|--|--|--|--|--|--|");
    let short = line("1,000 samples", &capture(1000));
    line("10,000 samples", &capture(10_000));
    let long = line("65,535 samples", &capture(65_535));
    line("10,000 samples, 1,000 replies", &with_replies(capture(10_000)));
    let empty = line("no record, 172 bytes", &capture(0));
    line("a hole of 1 tick", &one_hole(1));
    line("a hole of 1,000,000 ticks", &one_hole(1_000_000));
    let giant = line("a hole of 4,294,967,295 ticks", &one_hole(u32::MAX));
    println!();
    compare("Time a sample at 65,535 samples over that at 1,000", long, short, 1000.0 / 65_535.0);
    compare("Time of the hole of 4,294,967,295 ticks over that of no record", giant, empty, 1.0);
    println!("A live sample of {CELLS} cells with its checks: {}.", text(live_sample()));
    println!();
    recorder_rows::rows();
}
