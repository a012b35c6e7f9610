// Traces with the answer that paper 01 gives to each, written down by hand: `cases DIR`. Random traces:
// `cases DIR SEED COUNT`. A trace is NUMBER.trace, its answer NUMBER.expect; `index` has a line for each.
mod random_trace;
#[path = "../trace/bytes.rs"]
mod trace_bytes;

use random_trace::{random_trace, spoiled, Random};
use std::fs;
use trace_bytes::{seal, Sample, Trace};

#[derive(Default)]
struct Cases(Vec<(String, Vec<u8>, String)>);

// The report of no tick, after the rules.
const NO_TICK: &str = "000000 0000000000000000 0000000000000000 00000000 00000000";

// Three lines: the report's rules that are not clear throughout, the rest of it, the verdicts.
fn accepted(rules: &[(usize, &str)], rest: &str, verdicts: &str) -> String {
    let mut text = String::new();
    for rule in 0..16 {
        let own = rules.iter().find(|r| r.0 == rule);
        text += own.map_or("0000 ffffffff ffffffff", |r| r.1);
    }
    format!("accepted\n{}\n{verdicts}\n", (text + rest).replace(' ', ""))
}

impl Cases {
    fn refused(&mut self, name: &str, trace: Vec<u8>, number: u8, place: u32) {
        self.0.push((name.to_string(), trace, format!("refused {number} at {place}\n")));
    }

    fn accepted(&mut self, name: &str, t: &Trace, rules: &[(usize, &str)], rest: &str, verdicts: &str) {
        self.0.push((name.to_string(), t.bytes(), accepted(rules, rest, verdicts)));
    }
}

// Three cells, this one and two of 4,000 mV, all at 25 degrees.
fn sample(tick: u32, volt: u16) -> Sample {
    Sample { tick, current: 0, board: 250, volts: vec![volt, 4000, 4000], temps: vec![250; 3] }
}

fn samples(ticks: std::ops::Range<u32>) -> Vec<Sample> {
    ticks.map(|tick| sample(tick, 4000)).collect()
}

fn status(words: &[(u32, u16)]) -> Vec<(u32, [u8; 6])> {
    words.iter().map(|&(tick, word)| (tick, seal(0x16, word))).collect()
}

// The whole case with the byte at `at` changed.
fn with_byte(at: usize, byte: u8) -> Vec<u8> {
    let mut bytes = Trace::new(3).bytes();
    bytes[at] = byte;
    bytes
}

fn head_cases(c: &mut Cases) {
    c.accepted("whole case", &Trace::new(3), &[], NO_TICK, "");
    c.accepted("twelve cells", &Trace::new(12), &[], NO_TICK, "");
    c.accepted("idle 32,766", &Trace { idle: 32_766, ..Trace::new(3) }, &[], NO_TICK, "");
    c.refused("no byte", vec![], 1, 0);
    c.refused("three bytes", vec![1, 3, 0], 1, 0);
    c.refused("1 before 2", vec![2, 3, 0], 1, 0);
    c.refused("version 0", with_byte(0, 0), 2, 0);
    c.refused("version 2", with_byte(0, 2), 2, 0);
    c.refused("2 before 3", vec![2, 99, 0, 0], 2, 0);
    c.refused("two cells", with_byte(1, 2), 3, 0);
    c.refused("thirteen cells", with_byte(1, 13), 3, 0);
    c.refused("3 before 4", vec![1, 2, 255, 255], 3, 0);
    c.refused("idle 32,767", Trace { idle: 32_767, ..Trace::new(3) }.bytes(), 4, 0);
    c.refused("idle 65,535", Trace { idle: 65_535, ..Trace::new(3) }.bytes(), 4, 0);
    c.refused("4 before 5", vec![1, 3, 255, 127], 4, 0);
}

fn section_cases(c: &mut Cases) {
    let whole = Trace::new(3).bytes();
    for length in [4, 5, 6, 165, 166, 167, 169, 171] {
        c.refused(&format!("cut after {length} bytes"), whole[..length].to_vec(), 5, 0);
    }
    c.refused("a hole that is not there", with_byte(166, 1), 5, 0);
    c.refused("a reply that is not there", with_byte(168, 1), 5, 0);
    c.refused("a sample that is not there", with_byte(170, 1), 5, 0);
    c.refused("256 samples that are not there", with_byte(171, 1), 5, 0);
    let mut t = Trace::new(3);
    t.samples = samples(0..2);
    let bytes = t.bytes();
    c.refused("the last sample cut", bytes[..bytes.len() - 1].to_vec(), 5, 0);
    c.refused("samples of four cells in the room of three", [&[1, 4], &bytes[2..]].concat(), 5, 0);
    for count in [0, 15, 17] {
        c.refused(&format!("{count} rules"), with_byte(4, count), 6, 0);
    }
    c.refused("272 rules", with_byte(5, 1), 6, 0);
    c.refused("6 before 5: no rules at all", vec![1, 3, 0, 0, 0, 0], 6, 0);
    c.refused("6 before 5: fifteen rules, cut", with_byte(4, 15)[..20].to_vec(), 6, 0);
    c.refused("a byte left over", [&whole[..], &[0]].concat(), 11, 0);
    c.refused("a sample too many", [&bytes[..], &[0; 20]].concat(), 11, 0);
    let late = Trace { rules: [(0, 0, 256); 16], holes: vec![(1, 0)], ..t };
    c.refused("5 before 7", late.bytes()[..190].to_vec(), 5, 0);
    c.refused("11 before 7", [&late.bytes()[..], &[0]].concat(), 11, 0);
}

// Cells, rule, threshold, recovery, time; whether it is within the limits.
const LIMITS: [(u8, usize, i32, i32, u16, bool); 58] = [
    (3, 0, 1, 1, 1, true),
    (3, 0, 65_534, 1, 255, true),
    (3, 0, 65_534, 65_534, 1, true),
    (3, 0, 65_535, 1, 1, false),
    (3, 0, 4200, 0, 1, false),
    (3, 0, 4200, 4201, 1, false),
    (3, 0, 4200, 4100, 256, false),
    (3, 0, 4200, 4100, 65_535, false),
    (3, 0, -5, 70_000, 0, true),
    (3, 1, 1, 65_534, 1, true),
    (3, 1, 3000, 3000, 1, true),
    (3, 1, 0, 3000, 1, false),
    (3, 1, 3000, 2999, 1, false),
    (3, 1, 3000, 65_535, 1, false),
    (3, 2, 196_604, 1, 1, true),
    (3, 2, 196_605, 1, 1, false),
    (4, 2, 196_605, 1, 1, true),
    (12, 2, 786_419, 1, 1, true),
    (12, 2, 786_420, 1, 1, false),
    (3, 3, 1, 196_604, 1, true),
    (3, 3, 1, 196_605, 1, false),
    (3, 4, 32_766, -32_767, 1, true),
    (3, 4, 32_767, 0, 1, false),
    (3, 4, 0, -32_768, 1, false),
    (3, 5, -32_767, 32_766, 1, true),
    (3, 5, -32_768, 0, 1, false),
    (3, 5, 0, 32_767, 1, false),
    (3, 6, 32_766, -32_767, 1, true),
    (3, 6, 400, 450, 1, false),
    (3, 7, 32_766, 32_766, 1, true),
    (3, 7, 32_767, 32_766, 1, false),
    (3, 8, -32_767, -32_767, 1, true),
    (3, 8, 600, -32_768, 1, false),
    (3, 9, -32_767, -32_767, 1, true),
    (3, 9, -100, -101, 1, false),
    (3, 10, 0, 0, 1, true),
    (3, 10, 65_534, 0, 1, true),
    (3, 10, 65_535, 0, 1, false),
    (3, 10, -1, 0, 1, false),
    (3, 10, 4200, 1, 1, false),
    (3, 10, 4200, 1, 0, true),
    (3, 11, -32_768, 0, 1, true),
    (3, 11, 32_766, 0, 1, true),
    (3, 11, 32_767, 0, 1, false),
    (3, 11, -32_769, 0, 1, false),
    (3, 12, 32_767, 0, 1, true),
    (3, 12, -32_767, 0, 1, true),
    (3, 12, -32_768, 0, 1, false),
    (3, 12, 32_768, 0, 1, false),
    (3, 12, -4000, -1, 1, false),
    (3, 13, -32_768, 0, 1, true),
    (3, 13, 500, 450, 1, false),
    (3, 14, 32_766, 0, 255, true),
    (3, 14, 32_767, 0, 1, false),
    (3, 15, 0, 0, 1, true),
    (3, 15, 65_534, 0, 1, true),
    (3, 15, 65_535, 0, 1, false),
    (3, 15, 800, 0, 256, false),
];

fn limit_cases(c: &mut Cases) {
    for (cells, rule, threshold, recovery, time, fine) in LIMITS {
        let mut t = Trace::new(cells);
        t.rules[rule] = (threshold, recovery, time);
        let name = format!("rule {rule} of {cells} cells: {threshold}, {recovery}, {time}");
        if fine {
            c.accepted(&name, &t, &[], NO_TICK, "");
        } else {
            c.refused(&name, t.bytes(), 7, rule as u32);
        }
    }
    let mut t = Trace::new(3);
    (t.rules[9], t.rules[3], t.rules[15]) = ((0, -1, 1), (0, 0, 1), (0, 0, 300));
    c.refused("three rules outside", t.bytes(), 7, 3);
    t.holes = vec![(1, 0)];
    c.refused("7 before 8", t.bytes(), 7, 3);
}

fn hole_cases(c: &mut Cases) {
    let with = |holes: &[(u32, u32)]| Trace { holes: holes.to_vec(), ..Trace::new(3) }.bytes();
    c.refused("a hole reversed", with(&[(1, 0)]), 8, 0);
    c.refused("the second hole reversed", with(&[(0, 4), (6, 5)]), 8, 1);
    c.refused("holes overlap by a tick", with(&[(0, 4), (4, 9)]), 8, 1);
    c.refused("a hole twice", with(&[(0, 4), (0, 4)]), 8, 1);
    c.refused("holes descend", with(&[(5, 9), (0, 4)]), 8, 1);
    c.refused("a hole to the last tick of all", with(&[(0, u32::MAX)]), 8, 0);
    c.refused("a hole at the last tick of all", with(&[(0, u32::MAX - 1), (u32::MAX, u32::MAX)]), 8, 1);
    c.refused("two holes wrong", with(&[(0, 4), (5, 9), (12, 11), (10, 10)]), 8, 2);
    c.refused("8 before 9", with(&[(3, 4), (4, 5)]), 8, 1);
    c.accepted(
        "holes touch",
        &Trace { holes: vec![(0, 4), (5, 5), (6, 9)], ..Trace::new(3) },
        &[],
        "000000 0000000000000000 0000000000000000 0a000000 0a000000",
        "",
    );
}

fn coverage_cases(c: &mut Cases) {
    let with = |samples: Vec<Sample>, holes: &[(u32, u32)]| Trace { samples, holes: holes.to_vec(), ..Trace::new(3) };
    c.refused("no record at tick 0", with(samples(1..2), &[]).bytes(), 9, 0);
    c.refused("no hole at tick 0", with(vec![], &[(1, 2)]).bytes(), 9, 0);
    c.refused("a gap before a hole", with(samples(0..5), &[(6, 9)]).bytes(), 9, 5);
    c.refused("a gap before a sample", with(vec![sample(0, 0), sample(2, 0)], &[]).bytes(), 9, 1);
    c.refused("a sample twice", with(vec![sample(0, 0), sample(0, 0)], &[]).bytes(), 9, 1);
    c.refused("sample and hole at one tick", with(samples(0..4), &[(3, 5)]).bytes(), 9, 3);
    c.refused("a sample inside a hole", with(vec![sample(5, 0)], &[(0, 9)]).bytes(), 9, 10);
    c.refused("a sample inside the first of touching holes", with(vec![sample(5, 0)], &[(0, 9), (10, 19)]).bytes(), 9, 20);
    c.refused("a sample at the last tick of all", with(vec![sample(u32::MAX, 0)], &[(0, u32::MAX - 1)]).bytes(), 9, u32::MAX);
    c.refused("a sample left after the last tick", with(vec![sample(7, 0)], &[(0, u32::MAX - 1)]).bytes(), 9, u32::MAX);
    let mut t = with(samples(1..2), &[]);
    t.replies = status(&[(9, 0)]);
    c.refused("9 before 10", t.bytes(), 9, 0);
    let mixed = with(vec![sample(0, 0), sample(3, 0), sample(6, 0)], &[(1, 2), (4, 4), (5, 5)]);
    c.accepted("samples and holes", &mixed, &[], "000000 0000000000000000 0000000000000000 04000000 07000000", "");
}

fn reply_cases(c: &mut Cases) {
    let with = |ticks: &[u32]| {
        let replies = ticks.iter().map(|&tick| (tick, seal(0x0a, 0))).collect();
        Trace { replies, samples: samples(0..3), holes: vec![(3, 4)], ..Trace::new(3) }
    };
    c.refused("a reply past the last tick", with(&[5]).bytes(), 10, 0);
    c.refused("the second reply past the last tick", with(&[4, 5]).bytes(), 10, 1);
    c.refused("reply ticks fall", with(&[0, 1, 0]).bytes(), 10, 2);
    c.refused("a fall before one past the end", with(&[0, 2, 1, 99]).bytes(), 10, 2);
    c.refused("one past the end before a fall", with(&[0, 99, 1]).bytes(), 10, 1);
    c.refused("a reply at the last tick of all", with(&[u32::MAX]).bytes(), 10, 0);
    c.refused("a reply where no tick is covered", Trace { replies: status(&[(0, 0)]), ..Trace::new(3) }.bytes(), 10, 0);
    let rest = "000000 0000000000000000 0000000000000000 02000000 05000000";
    c.accepted("replies at equal ticks, and at the last", &with(&[0, 0, 2, 3, 4, 4]), &[], rest, "444666");
}

fn length_cases(c: &mut Cases) {
    let mut t = Trace::new(3);
    t.holes = vec![(0, 0), (1, 1), (2, 2)];
    t.samples = (3..3270).map(|tick| Sample { current: 1, ..sample(tick, 4000) }).collect();
    assert!(t.bytes().len() == 65_536);
    c.accepted("65,536 bytes", &t, &[], "000000 c30c000000000000 0000000000000000 03000000 c60c0000", "");
    c.refused("65,537 bytes, one left over", [&t.bytes()[..], &[0]].concat(), 14, 0);
    c.refused("65,536 zeros", vec![0; 65_536], 2, 0);
    c.refused("65,537 zeros", vec![0; 65_537], 14, 0);
    c.refused("200,000 bytes", vec![1; 200_000], 14, 0);
}

// A rule alone at T = 1 and a sample that trips it: threshold and recovery; current, board, first cell, first cell's
// temperature; then C, D and fuse, charge in and out, and the verdicts on eight words of BatteryStatus.
const TRIPS: [(i32, i32, i16, i16, u16, i16, &str, &str, &str); 16] = [
    (4200, 4100, 0, 250, 4201, 250, "010000", "0000 0000", "55554455"),
    (2800, 3000, 0, 250, 2799, 250, "000100", "0000 0000", "54555455"),
    (12_500, 12_000, 0, 250, 4501, 250, "010000", "0000 0000", "55554455"),
    (9000, 9500, 0, 250, 999, 250, "000100", "0000 0000", "54555455"),
    (3000, 2500, 3001, 250, 4000, 250, "010000", "b90b 0000", "55554455"),
    (-3000, -2500, -3001, 250, 4000, 250, "000100", "0000 b90b", "54555455"),
    (450, 400, 1, 250, 4000, 451, "010000", "0100 0000", "55555544"),
    (600, 550, -1, 250, 4000, 601, "000100", "0000 0100", "55545554"),
    (700, 650, 0, 701, 4000, 250, "010100", "0000 0000", "55555554"),
    (-100, -50, -1, 250, 4000, -101, "000100", "0000 0100", "54555455"),
    (4350, 0, 0, 250, 4351, 250, "010101", "0000 0000", "55555455"),
    (4000, 0, 4001, 250, 4000, 250, "010101", "a10f 0000", "55555455"),
    (-4000, 0, -4001, 250, 4000, 250, "010101", "0000 a10f", "55555455"),
    (500, 0, 1, 250, 4000, 501, "010101", "0100 0000", "55555554"),
    (650, 0, -1, 250, 4000, 651, "010101", "0000 0100", "55555554"),
    (800, 0, 0, 250, 4801, 250, "010101", "0000 0000", "55555455"),
];

const CLEAR_VERDICTS: &str = "44554455";

// The rule trips at `tick`; samples that trip none come before and after.
fn tripped(rule: usize, tick: u32, ticks: u32) -> Trace {
    let (threshold, recovery, current, board, volt, temp, ..) = TRIPS[rule];
    let mut t = Trace { samples: samples(0..ticks), ..Trace::new(3) };
    t.samples[tick as usize] = Sample { current, board, temps: vec![temp, 250, 250], ..sample(tick, volt) };
    t.rules[rule] = (threshold, recovery, 1);
    t.replies = status(&[0, 0x0800, 0x1000, 0x1800, 0x4000, 0x4800, 0x5000, 0x5800].map(|word| (tick, word)));
    t
}

fn rest_of(rule: usize, driven: &str, ticks: u32) -> String {
    let totals = TRIPS[rule].7.replace(' ', "000000000000");
    format!("{driven} {totals}000000000000 00000000 0{ticks}000000")
}

fn trip_cases(c: &mut Cases) {
    for rule in 0..16 {
        let (.., driven, _, verdicts) = TRIPS[rule];
        let mut t = tripped(rule, 0, 1);
        c.accepted(&format!("rule {rule} trips"), &t, &[(rule, "0101 00000000 00000000")], &rest_of(rule, driven, 1), verdicts);
        // now the reading is at the threshold and not beyond
        t.rules[rule].0 += if [1, 3, 5, 9, 12].contains(&rule) { -1 } else { 1 };
        c.accepted(&format!("rule {rule} at its threshold"), &t, &[], &rest_of(rule, "000000", 1), CLEAR_VERDICTS);
        let (name, t) = (format!("rule {rule} at an odd tick"), tripped(rule, 1, 2));
        if [6, 7, 8, 9, 13, 14].contains(&rule) {
            c.accepted(&name, &t, &[], &rest_of(rule, "000000", 2), CLEAR_VERDICTS);
        } else {
            c.accepted(&name, &t, &[(rule, "0101 01000000 01000000")], &rest_of(rule, driven, 2), verdicts);
        }
    }
}

// A rule trips at tick 0; the readings after it are beyond its recovery by one, or just at it.
fn recovery_cases(c: &mut Cases) {
    let beyond = [4001, 3999, 12_001, 11_999, 1, -1, 251, 251, 251, 249];
    let at = [4000, 4000, 12_000, 12_000, 0, 0, 250, 250, 250, 250, 0, 0, 0, 0, 0, 0];
    for rule in 0..16 {
        let (.., driven, _, verdicts) = TRIPS[rule];
        let mut t = tripped(rule, 0, 3);
        t.rules[rule].1 = at[rule];
        c.accepted(&format!("rule {rule} stays"), &t, &[(rule, "0101 00000000 00000000")], &rest_of(rule, driven, 3), verdicts);
        if rule < 10 {
            t.rules[rule].1 = beyond[rule];
            let flags = [(rule, "0000 00000000 00000000")];
            c.accepted(&format!("rule {rule} recovers"), &t, &flags, &rest_of(rule, "000000", 3), verdicts);
        }
    }
}

// 12,000 mV, with one byte changed.
fn voltage_but(at: usize, byte: u8) -> [u8; 6] {
    let mut bus = [0x16, 0x09, 0x17, 0xe0, 0x2e, 0xe2];
    bus[at] = byte;
    bus
}

// Bus bytes and their verdict, by tick.
fn verdict_replies() -> [(u32, Vec<([u8; 6], char)>); 11] {
    let voltage = voltage_but(5, 0xe2);
    let [a, b, d, low, high, code] = seal(0x0d, 50);
    let (other, other_wrong) = ([a, b, d, low, high, code], [a, b, d, low, high, code ^ 1]);
    let (current, state) = (|word| seal(0x0a, word), |word| seal(0x16, word));
    [
        (0, vec![(voltage, '4'), (seal(0x09, 12_001), '5'), (current(100), '4'), (voltage_but(0, 0x14), '1')]),
        (0, vec![(voltage_but(2, 0x16), '1'), (voltage_but(5, 0xe3), '2'), (voltage_but(4, 0x2f), '2')]),
        (0, vec![(other, '3'), (other_wrong, '2')]),
        (1, vec![(current(0xff9c), '4'), (current(100), '5'), (voltage, '4')]),
        (1, vec![(state(0), '4'), (state(0x4800), '4'), (state(0x1000), '5')]),
        (2, vec![(voltage, '6'), (current(0), '6'), (voltage_but(0, 0), '1'), (voltage_but(5, 0), '2'), (other, '3')]),
        (2, vec![(state(0), '6'), (state(0x5800), '6')]),
        (3, vec![(state(0), '6')]),
        (4, vec![(state(0x5800), '4'), (state(0x5000), '5'), (state(0x1800), '5'), (state(0x4800), '5'), (state(0), '5')]),
        (5, vec![(state(0x5800), '4'), (state(0), '5')]),
        (6, vec![(state(0), '4'), (state(0x5800), '5'), (state(0x4800), '4'), (state(0xefff), '4'), (state(0xffff), '5')]),
    ]
}

// Rule 0 at T = 3 and rule 8 at T = 1. At ticks 2 and 3 nothing is seen: rule 8 may have tripped at 2. At tick 4 rule 8 is
// held and rule 0 unknown; at tick 5 rule 0 is clear and rule 8 is not evaluated; at tick 6 both are clear.
fn verdict_cases(c: &mut Cases) {
    let mut t = Trace { holes: vec![(2, 3)], ..Trace::new(3) };
    (t.rules[0], t.rules[8]) = ((4200, 4100, 3), (600, 500, 1));
    t.samples = [0, 1, 4, 5, 6].map(|tick| sample(tick, if tick == 4 { 4300 } else { 4000 })).to_vec();
    (t.samples[0].current, t.samples[1].current, t.samples[2].board) = (100, -100, 700);
    let mut verdicts = String::new();
    for (tick, replies) in verdict_replies() {
        for (bus, verdict) in replies {
            t.replies.push((tick, bus));
            verdicts.push(verdict);
        }
    }
    let rules = [(0, "0000 04000000 ffffffff"), (8, "0000 02000000 04000000")];
    let rest = "000000 6400000000000000 6400000000000000 02000000 07000000";
    c.accepted("verdicts", &t, &rules, rest, &verdicts);
}

fn word_cases(c: &mut Cases) {
    let mut t = Trace::new(3);
    t.samples = samples(0..2);
    t.samples[0].volts = vec![65_535, 65_535, 65_535];
    t.samples[1].volts = vec![65_535, 0, 0];
    (t.samples[0].current, t.samples[1].current) = (-32_768, 32_767);
    t.replies = vec![(0, seal(0x09, 0xfffd)), (0, seal(0x0a, 0x8000)), (1, seal(0x09, 0xffff)), (1, seal(0x0a, 0x7fff))];
    let rest = "000000 ff7f000000000000 0080000000000000 00000000 02000000";
    c.accepted("a sum over 65,535 agrees with no word", &t, &[], rest, "5444");
}

// Charging is a current above idle; it qualifies the threshold and not what holds a rule at its top.
fn idle_cases(c: &mut Cases) {
    for (rule, sign, heat, driven, totals) in [
        (6, 1, 500, "010000", "9800000000000000 0000000000000000"),
        (7, -1, 500, "000100", "0000000000000000 9800000000000000"),
        (9, -1, -200, "000100", "0000000000000000 9800000000000000"),
    ] {
        let mut t = Trace { idle: 50, samples: samples(0..5), ..Trace::new(3) };
        t.rules[rule] = if heat > 0 { (450, 400, 1) } else { (-100, -50, 1) };
        for (s, current) in t.samples.iter_mut().zip([50, 51, 51, 0, 0]) {
            (s.current, s.temps) = (sign * current, vec![250, heat, 250]);
        }
        let rest = driven.to_string() + totals + "00000000 05000000";
        c.accepted(&format!("rule {rule} and the idle current"), &t, &[(rule, "0101 02000000 02000000")], &rest, "");
    }
}

// S, N, R, H of paper 01; s is a highest cell of 4,200 and r of 4,100. The rule's ten bytes, then C, D, fuse.
const MARKED: [(usize, u16, &str, &str, &str); 12] = [
    (0, 3, "SS", "0100 ffffffff ffffffff", "000000"),
    (0, 3, "SSS", "0101 02000000 02000000", "010000"),
    (0, 3, "SSSN", "0101 02000000 02000000", "010000"),
    (0, 3, "SSSR", "0000 02000000 02000000", "000000"),
    (0, 3, "SSSr", "0101 02000000 02000000", "010000"),
    (0, 3, "SSs", "0000 ffffffff ffffffff", "000000"),
    (0, 3, "SSH", "0202 02000000 ffffffff", "020000"),
    (0, 3, "SSHS", "0102 02000000 ffffffff", "020000"),
    (0, 3, "SSHN", "0202 02000000 ffffffff", "020000"),
    (0, 3, "SSHR", "0000 02000000 ffffffff", "000000"),
    (0, 3, "SSSHH", "0202 02000000 02000000", "020000"),
    (10, 3, "SSHR", "0202 02000000 ffffffff", "020202"),
];

fn marked_cases(c: &mut Cases) {
    for (k, (rule, time, records, flags, driven)) in MARKED.into_iter().enumerate() {
        let mut t = Trace::new(3);
        t.rules[rule] = (4200, if rule == 0 { 4100 } else { 0 }, time);
        for (tick, record) in (0..).zip(records.chars()) {
            match record {
                'S' => t.samples.push(sample(tick, 4300)),
                'N' => t.samples.push(sample(tick, 4150)),
                'R' => t.samples.push(sample(tick, 4000)),
                's' => t.samples.push(sample(tick, 4200)),
                'r' => t.samples.push(sample(tick, 4100)),
                _ => t.holes.push((tick, tick)),
            }
        }
        let counts = format!("{:02x}000000 {:02x}000000", t.holes.len(), records.len());
        let rest = format!("{driven} 0000000000000000 0000000000000000 {counts}");
        c.accepted(&format!("marked case {}", k + 1), &t, &[(rule, flags)], &rest, "");
    }
    let mut t = Trace { samples: samples(0..1), holes: vec![(1, 1)], ..Trace::new(3) };
    t.rules[8] = (600, 500, 1);
    c.accepted("marked case 13", &t, &[], "000000 0000000000000000 0000000000000000 01000000 02000000", "");
    let mut t = Trace { holes: vec![(0, 4)], ..Trace::new(3) };
    t.rules[0] = (4200, 4100, 0);
    c.accepted("marked case 14", &t, &[], "000000 0000000000000000 0000000000000000 05000000 05000000", "");
}

fn unseen_cases(c: &mut Cases) {
    let mut t = Trace { samples: samples(0..1), holes: vec![(1, 3)], ..Trace::new(3) };
    t.rules[8] = (600, 500, 2);
    let rest = "000000 0000000000000000 0000000000000000 03000000 04000000";
    c.accepted("one even tick in a hole of three", &t, &[(8, "0200 ffffffff ffffffff")], rest, "");
    t.holes = vec![(1, 4)];
    let rest = "020200 0000000000000000 0000000000000000 04000000 05000000";
    c.accepted("two even ticks in a hole of four", &t, &[(8, "0202 04000000 ffffffff")], rest, "");

    let mut t = Trace { samples: vec![sample(0, 4300)], holes: vec![(1, 1)], ..Trace::new(3) };
    (t.rules[0], t.rules[10]) = ((4200, 4100, 1), (4200, 0, 1));
    let rules = [(0, "0202 00000000 00000000"), (10, "0101 00000000 00000000")];
    let rest = "010101 0000000000000000 0000000000000000 01000000 02000000";
    c.accepted("held beside unknown is held", &t, &rules, rest, "");

    let mut t = Trace { holes: vec![(0, u32::MAX - 1)], ..Trace::new(3) };
    (t.rules[0], t.rules[8], t.rules[15]) = ((4200, 4100, 255), (600, 500, 255), (800, 0, 255));
    t.replies = status(&[(253, 0), (253, 0x1000), (254, 0), (254, 0x1000), (507, 0x1000), (508, 0x1000), (u32::MAX - 1, 0)]);
    let rules = [(0, "0202 fe000000 ffffffff"), (8, "0202 fc010000 ffffffff"), (15, "0202 fe000000 ffffffff")];
    let rest = "020202 0000000000000000 0000000000000000 ffffffff ffffffff";
    c.accepted("a hole of 4,294,967,295 ticks", &t, &rules, rest, "4565566");
}

// Nothing is seen for a minute, and a cell may be over its voltage for three seconds: from tick 4 on the status is unknown,
// and no reply of BatteryStatus is held against the pack but for a hot alarm.
fn story_case(c: &mut Cases) {
    let mut t = Trace { holes: vec![(3, 62)], ..Trace::new(3) };
    t.rules[0] = (4200, 4100, 3);
    t.samples = vec![sample(0, 4000), sample(1, 4000), sample(2, 4300), sample(63, 4150)];
    t.replies = status(&[(3, 0), (3, 0x4000), (4, 0), (4, 0x4000), (4, 0x1000), (62, 0), (63, 0), (63, 0x4000), (63, 0x5000)]);
    let rest = "020000 0000000000000000 0000000000000000 3c000000 40000000";
    c.accepted("a cell over voltage inside a hole", &t, &[(0, "0202 04000000 ffffffff")], rest, "446656665");
    t.samples.push(sample(64, 4000));
    let rest = "000000 0000000000000000 0000000000000000 3c000000 41000000";
    c.accepted("and clear once it is seen low", &t, &[(0, "0000 04000000 ffffffff")], rest, "446656665");
}

fn by_hand() -> Cases {
    let mut c = Cases::default();
    head_cases(&mut c);
    section_cases(&mut c);
    limit_cases(&mut c);
    hole_cases(&mut c);
    coverage_cases(&mut c);
    reply_cases(&mut c);
    length_cases(&mut c);
    trip_cases(&mut c);
    recovery_cases(&mut c);
    verdict_cases(&mut c);
    word_cases(&mut c);
    idle_cases(&mut c);
    marked_cases(&mut c);
    unseen_cases(&mut c);
    story_case(&mut c);
    c
}

// Half of them valid, an eighth of them long.
fn random(x: &mut Random, round: usize) -> Vec<u8> {
    let t = random_trace(x, round % 8 == 0);
    if x.one_in(2) { t.bytes() } else { spoiled(x, &t) }
}

fn main() {
    let arguments: Vec<String> = std::env::args().skip(1).collect();
    let directory = &arguments[0];
    let write = |name: String, bytes: &[u8]| fs::write(format!("{directory}/{name}"), bytes).expect("a file written");
    fs::create_dir_all(directory).expect("a directory");
    if let [_, seed, count] = &arguments[..] {
        let mut x = Random(seed.parse().expect("a seed"));
        for round in 0..count.parse().expect("a count") {
            write(format!("{round:04}.trace"), &random(&mut x, round));
        }
        return;
    }
    let mut index = String::new();
    for (number, (name, trace, expected)) in by_hand().0.into_iter().enumerate() {
        write(format!("{number:04}.trace"), &trace);
        write(format!("{number:04}.expect"), expected.as_bytes());
        index += &format!("{number:04} {name}\n");
    }
    write("index".to_string(), index.as_bytes());
}
