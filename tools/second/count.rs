//! What the traces of a run covered.

use crate::fast::judge_input;
use crate::read::{read, Refusal};
use crate::report::{Flag, Judged, NO_TICK};
use crate::trace::Trace;

#[derive(Default)]
pub struct Counts {
    traces: u64,
    accepted: u64,
    refusals: [u64; 17],
    /// Refusals 7 to 10 at a place above 0.
    later_places: [u64; 17],
    at_end: u64,
    verdicts: [u64; 7],
    /// Verdicts on Voltage, Current and BatteryStatus.
    by_command: [[u64; 7]; 3],
    alerts: [[u64; 3]; 16],
    statuses: [[u64; 3]; 16],
    outputs: [[u64; 3]; 3],
    first_in_hole: u64,
    /// Held at the end with T from 63.
    long_held: [u64; 16],
}

fn in_hole(trace: &Trace, tick: u32) -> bool {
    trace.holes.iter().any(|hole| hole.first <= tick && tick <= hole.last)
}

fn sum(counts: &[[u64; 3]; 16], value: usize) -> u64 {
    counts.iter().map(|rule| rule[value]).sum()
}

impl Counts {
    pub fn add(&mut self, input: &[u8]) {
        self.traces += 1;
        match (judge_input(input), read(input)) {
            (Ok(judged), Ok(trace)) => self.add_accepted(&judged, &trace),
            (Err(refusal), _) => self.add_refused(&refusal),
            (Ok(_), Err(_)) => {}
        }
    }

    fn add_refused(&mut self, refusal: &Refusal) {
        let number = refusal.number as usize;
        self.refusals[number] += 1;
        self.later_places[number] += u64::from(refusal.place != 0);
        self.at_end += u64::from(number == 9 && refusal.place == 4_294_967_295);
    }

    fn add_accepted(&mut self, judged: &Judged, trace: &Trace) {
        self.accepted += 1;
        for (verdict, reply) in judged.verdicts.iter().zip(&trace.replies) {
            self.verdicts[*verdict as usize] += 1;
            if let Some(command) = [0x09, 0x0A, 0x16].iter().position(|c| *c == reply.bus[1]) {
                self.by_command[command][*verdict as usize] += 1;
            }
        }
        let report = judged.report();
        for output in 0..3 {
            self.outputs[output][report[160 + output] as usize] += 1;
        }
        for (no, rule) in judged.rules.iter().enumerate() {
            self.alerts[no][rule.alert as usize] += 1;
            self.statuses[no][rule.status as usize] += 1;
            let first = rule.first_possible;
            self.first_in_hole += u64::from(first != NO_TICK && in_hole(trace, first));
            self.long_held[no] += u64::from(trace.rules[no].time >= 63 && rule.status == Flag::Held);
        }
    }

    fn missing_flags(&self, out: &mut Vec<String>) {
        for (value, name) in ["clear", "held", "unknown"].iter().enumerate() {
            for no in 0..16 {
                need(out, self.alerts[no][value], format!("rule {}: alert {}", no, name));
                need(out, self.statuses[no][value], format!("rule {}: status {}", no, name));
            }
            for (output, counts) in ["C", "D", "fuse"].iter().zip(&self.outputs) {
                need(out, counts[value], format!("{} {}", output, name));
            }
        }
        need(out, self.first_in_hole, "first tick in a hole".to_string());
    }

    /// What never came up of verdicts and flags.
    pub fn missing(&self) -> Vec<String> {
        let mut out = Vec::new();
        self.missing_flags(&mut out);
        for verdict in 1..7 {
            need(&mut out, self.verdicts[verdict], format!("verdict {}", verdict));
        }
        for (command, counts) in ["Voltage", "Current", "BatteryStatus"].iter().zip(&self.by_command) {
            for (verdict, count) in counts.iter().enumerate().skip(4) {
                need(&mut out, *count, format!("verdict {} on {}", verdict, command));
            }
        }
        out
    }

    /// The same, and what never came up of the program's refusals and of long times.
    pub fn missing_of_all(&self) -> Vec<String> {
        let mut out = self.missing();
        for number in [1, 2, 3, 4, 5, 6, 7, 8, 9, 10, 11, 14] {
            need(&mut out, self.refusals[number], format!("refusal {}", number));
        }
        for number in 7..11 {
            need(&mut out, self.later_places[number], format!("refusal {} at a place above 0", number));
        }
        need(&mut out, self.at_end, "refusal 9 at 4294967295".to_string());
        for no in 0..16 {
            need(&mut out, self.long_held[no], format!("rule {} held with T from 63", no));
        }
        out
    }

    pub fn summary(&self) -> String {
        let list = |counts: &[u64]| -> String {
            let some = counts.iter().enumerate().filter(|(_, count)| **count > 0);
            some.map(|(number, count)| format!(" {}:{}", number, count)).collect()
        };
        let flags = |counts: &[[u64; 3]; 16]| [sum(counts, 0), sum(counts, 1), sum(counts, 2)];
        format!(
            "{} traces; accepted {}; refused{}; verdicts{}; clear, held, unknown: alert {:?}, status {:?}, \
             C, D, fuse {:?}; first ticks in holes {}; held with T from 63 {:?}",
            self.traces,
            self.accepted,
            list(&self.refusals),
            list(&self.verdicts),
            flags(&self.alerts),
            flags(&self.statuses),
            self.outputs,
            self.first_in_hole,
            self.long_held
        )
    }
}

pub fn need(out: &mut Vec<String>, count: u64, name: String) {
    if count == 0 {
        out.push(name);
    }
}
