//! The paper's marked cases, its whole case and published values of the packet error code.

use crate::bytes::hex;
use crate::cells_cases;
use crate::fast::{end_states, judge_input};
use crate::recorder_cases;
use crate::reply::{crc8, seal};
use crate::report::program_output;
use crate::trace::{Hole, Rule, Sample, Trace, RULE_OFF};

/// A trace with one rule: a number is a sample with that highest cell, None a one-tick hole.
fn one_rule(no: usize, rule: Rule, ticks: &[Option<u16>]) -> Trace {
    let mut rules = vec![RULE_OFF; 16];
    rules[no] = rule;
    let mut trace = Trace { version: 1, cells: 3, idle: 0, rules, holes: vec![], replies: vec![], samples: vec![] };
    for (tick, volt) in ticks.iter().enumerate() {
        let tick = tick as u32;
        match volt {
            None => trace.holes.push(Hole { first: tick, last: tick }),
            Some(volt) => trace.samples.push(Sample {
                tick,
                current: 0,
                board: 250,
                volts: vec![*volt, 3_000, *volt],
                temps: vec![0; 3],
            }),
        }
    }
    trace
}

type Case = (usize, Rule, Vec<Option<u16>>, Vec<usize>);

fn marked_cases() -> Vec<Case> {
    let rule = Rule { threshold: 4_200, recovery: 4_100, time: 3 };
    let latched = Rule { threshold: 4_200, recovery: 0, time: 3 };
    let board = Rule { threshold: 600, recovery: 500, time: 1 };
    let off = Rule { threshold: 4_200, recovery: 4_100, time: 0 };
    let (s, n, r, h) = (Some(4_300), Some(4_150), Some(4_000), None);
    vec![
        (0, rule, vec![s, s], vec![2]),
        (0, rule, vec![s, s, s], vec![3]),
        (0, rule, vec![s, s, s, n], vec![3]),
        (0, rule, vec![s, s, s, r], vec![0]),
        (0, rule, vec![s, s, s, Some(4_100)], vec![3]),
        (0, rule, vec![s, s, Some(4_200)], vec![0]),
        (0, rule, vec![s, s, h], vec![0, 3]),
        (0, rule, vec![s, s, h, s], vec![1, 3]),
        (0, rule, vec![s, s, h, n], vec![0, 3]),
        (0, rule, vec![s, s, h, r], vec![0]),
        (0, rule, vec![s, s, s, h, h], vec![0, 1, 3]),
        (10, latched, vec![s, s, h, r], vec![0, 3]),
        (8, board, vec![n, h], vec![0]),
        (0, off, vec![h; 5], vec![0]),
    ]
}

fn whole_case() -> bool {
    let mut input = vec![1, 3, 0, 0, 16, 0];
    input.extend([0; 166]);
    let report = format!("{}{}", "0000ffffffffffffffff".repeat(16), hex(&[0; 27]));
    program_output(&judge_input(&input)) == format!("accepted\n{}\n\n", report)
}

/// The number of cases that came out otherwise than published.
pub fn run() -> usize {
    let mut wrong = 0;
    for (i, (no, rule, ticks, expected)) in marked_cases().into_iter().enumerate() {
        let trace = one_rule(no, rule, &ticks);
        let states = end_states(&trace).map(|all| all[no].clone());
        if states != Ok(expected) {
            println!("marked case {} gives {:?}", i + 1, states);
            wrong += 1;
        }
    }
    let checks = [
        ("whole case", whole_case()),
        ("CRC-8 of 123456789", crc8(b"123456789") == 0xF4),
        ("CRC-8 of 00, 01, 80", [crc8(&[0]), crc8(&[1]), crc8(&[0x80])] == [0x00, 0x07, 0x89]),
        ("a sealed reply checks to 0", crc8(&seal(0x09, 12_345)) == 0),
    ];
    for (name, right) in checks {
        if !right {
            println!("{} is wrong", name);
            wrong += 1;
        }
    }
    println!("marked cases, whole case and CRC-8 values: {} wrong", wrong);
    wrong + recorder_cases::run() + cells_cases::run()
}
