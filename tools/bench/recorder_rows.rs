// The proved recorder beside a plain one: the same calls, in the same run. Stops if they differ in a byte.
use crate::captures::{sample, CELLS};
use crate::mean;
use crate::odd_calls;
use crate::recorders::{Both, Plain, Proved, Recorder};
use crate::trace_bytes::Sample;
use std::hint::black_box;
use std::time::Instant;

// How many samples the store has room for, and how many bytes a sample has.
const NUMBER: u32 = 1000;
const WIDTH: usize = 8 + 4 * CELLS as usize;

// Each row has so many cards, one after the other in memory: the place alone moves the times of both recorders by a tenth.
const CARDS: usize = 9;

// Bursts of so many offers, with so many ticks skipped before each, and each drained by one call or none at all.
struct Plan {
    bursts: usize,
    burst: usize,
    skipped: u32,
    drains: bool,
}

// A recorder as a run finds it, its lent lists, and the samples that are offered by turns.
struct Card {
    begin: Vec<u32>,
    record: Vec<u32>,
    store: Vec<u8>,
    buffer: Vec<u8>,
    samples: Vec<Sample>,
}

// Carries a plan out, and answers how many samples became part of a hole, and how many were drained.
#[inline(never)]
fn run<R: Recorder>(plan: &Plan, card: &mut Card) -> (u64, u64) {
    let Card { begin, record, store, buffer, samples } = black_box(card);
    record.copy_from_slice(begin);
    let (mut tick, mut dropped, mut drained) = (begin[2], 0, 0);
    for _ in 0..plan.bursts {
        tick += plan.skipped;
        for k in 0..plan.burst {
            dropped += R::offer(record, store, tick, &samples[k % 16]);
            tick += 1;
        }
        if plan.drains {
            drained += R::drain(record, store, buffer);
        }
    }
    (dropped, drained)
}

impl Card {
    // A fresh recorder.
    fn new() -> Card {
        let mut record = vec![0; 6];
        assert!(Both::start(CELLS, NUMBER, &mut record) == 0);
        let long = NUMBER as usize * WIDTH;
        let (store, buffer) = (vec![0xaa; 8192 + long], vec![0xbb; long]);
        Card { begin: record.clone(), record, store, buffer, samples: (0..16).map(sample).collect() }
    }

    // With so many samples stored, after so many holes whose samples are drained.
    fn with(stored: usize, holes: usize) -> Card {
        let mut card = Card::new();
        let with_holes = Plan { bursts: holes, burst: 1, skipped: 1, drains: true };
        let filling = Plan { bursts: 1, burst: stored, skipped: 0, drains: false };
        for plan in [with_holes, filling] {
            run::<Both>(&plan, &mut card);
            card.begin = card.record.clone();
        }
        assert!(card.begin[3..5] == [holes as u32, stored as u32]);
        card
    }
}

// A row of the table: its cards, how many runs take about a millisecond, and the least seconds a run of each recorder on each card.
struct Row {
    name: &'static str,
    plan: Plan,
    cards: Vec<Card>,
    calls: u32,
    least: [[f64; CARDS]; 2],
}

impl Row {
    // Every call of the plan is compared on every card.
    fn new(name: &'static str, plan: Plan, card: impl Fn() -> Card, drops: bool) -> Row {
        let count = (plan.bursts * plan.burst) as u64;
        let expected = (if drops { count } else { 0 }, if plan.drains { count } else { 0 });
        let mut cards: Vec<Card> = (0..CARDS).map(|_| card()).collect();
        for card in &mut cards {
            assert!(run::<Both>(&plan, card) == expected);
        }
        let once = mean(1, || run::<Plain>(&plan, &mut cards[0]).0);
        let calls = (0.001 / once).clamp(1.0, 10_000.0) as u32;
        Row { name, plan, cards, calls, least: [[f64::INFINITY; CARDS]; 2] }
    }

    // Bursts that are stored, each drained by one call.
    fn drained(name: &'static str, bursts: usize, burst: usize, skipped: u32) -> Row {
        Row::new(name, Plan { bursts, burst, skipped, drains: true }, Card::new, false)
    }

    // A hundred offers to a store that holds so much.
    fn offered(name: &'static str, stored: usize, holes: usize) -> Row {
        let plan = Plan { bursts: 1, burst: 100, skipped: 0, drains: false };
        Row::new(name, plan, || Card::with(stored, holes), stored == NUMBER as usize)
    }

    // Each card and each recorder in its turn.
    fn turn(&mut self) {
        let Row { plan, cards, calls, least, .. } = self;
        for (k, card) in cards.iter_mut().enumerate() {
            for (least, run) in least.iter_mut().zip([run::<Proved>, run::<Plain>]) {
                least[k] = least[k].min(mean(*calls, || run(plan, card).0));
            }
        }
    }

    // Seconds a sample: the median of the cards.
    fn times(&self) -> [f64; 2] {
        self.least.map(|mut least| {
            least.sort_by(f64::total_cmp);
            least[CARDS / 2] / (self.plan.bursts * self.plan.burst) as f64
        })
    }
}

// Rows that are compared with each other are measured by turns.
fn measure<const N: usize>(mut rows: [Row; N]) -> [[f64; 2]; N] {
    let start = Instant::now();
    while start.elapsed().as_secs_f64() < 2.0 * N as f64 {
        rows.iter_mut().for_each(Row::turn);
    }
    rows.map(|row| {
        let [proved, plain] = row.times();
        let (name, ratio, rate) = (row.name, proved / plain, 1e-6 / proved);
        println!("| {name} | {:.2} ns | {:.2} ns | {ratio:.2} | {rate:.2} million |", proved * 1e9, plain * 1e9);
        [proved, plain]
    })
}

fn largest(numbers: impl Iterator<Item = f64>) -> f64 {
    numbers.fold(0.0, f64::max)
}

fn spread(what: &str, times: &[[f64; 2]]) {
    let [proved, plain] = [0, 1].map(|k| largest(times.iter().map(|t| t[k])) * largest(times.iter().map(|t| 1.0 / t[k])));
    println!("{what}: proved {proved:.2}, plain {plain:.2}.");
}

pub fn rows() {
    odd_calls::compare();
    println!("| recorder, {CELLS} cells, a store for 1,000 samples | proved | plain | ratio | samples a second, proved |");
    println!("|--|--|--|--|--|");
    let drained = measure([
        Row::drained("stored, and a drain for each sample", 4000, 1, 0),
        Row::drained("stored, and a drain for 16 samples", 250, 16, 0),
        Row::drained("stored, and a drain for 256 samples", 16, 256, 0),
        Row::drained("stored, and a drain for 1,000 samples", 4, 1000, 0),
        Row::drained("stored, and a drain for 100 samples, after a skipped tick", 40, 100, 1),
    ]);
    let stored = measure([
        Row::offered("stored, no drain: the store is empty", 0, 0),
        Row::offered("stored, no drain: half full", 450, 0),
        Row::offered("stored, no drain: nearly full", 900, 0),
        Row::offered("stored, no drain: 1,000 holes stand", 0, 1000),
    ]);
    let dropped = measure([
        Row::offered("dropped into a growing hole, the first", 1000, 0),
        Row::offered("dropped into a growing hole after 1,000", 1000, 1000),
    ]);
    println!();
    let ratio = largest(drained.iter().map(|[proved, plain]| proved / plain));
    println!("A stored sample and its share of the drain, the largest ratio: {ratio:.2}.");
    spread("Time of an offer that is stored, the largest over the smallest of what the store holds", &stored);
    spread("Time of an offer that is dropped, the same", &dropped);
}
