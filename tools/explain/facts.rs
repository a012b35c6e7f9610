// What an accepted answer says: its report and verdicts taken apart, and from the trace the numbers and records that they are about.
use crate::names::{BATTERY_STATUS, CURRENT, VOLTAGE};
use crate::trace_bytes::Sample;
use crate::trace_layout::{idle_of, reply_of, rule_of, sample_of, sections, whole, Section};

#[derive(Clone, Copy, PartialEq)]
pub enum Flag {
    Clear,
    Held,
    Unknown,
}

pub struct Rule {
    pub number: usize,
    pub threshold: i32,
    pub recovery: i32,
    pub time: u16,
    pub alert: Flag,
    pub status: Flag,
    pub first_possible: Option<u32>,
    pub first_held: Option<u32>,
}

// `sample` is that of the reply's tick, where it was seen.
pub struct Reply {
    pub tick: u32,
    pub bus: [u8; 6],
    pub verdict: u8,
    pub sample: Option<Sample>,
}

pub struct Accepted {
    pub cells: u8,
    pub idle: u16,
    pub rules: Vec<Rule>,
    pub charge_mosfet: Flag,
    pub discharge_mosfet: Flag,
    pub fuse: Flag,
    pub charge_in: u64,
    pub charge_out: u64,
    pub unseen: u32,
    pub ticks: u32,
    pub replies: Vec<Reply>,
}

impl Accepted {
    // The least and the greatest net charge: in - out - 32,768 x unseen and in - out + 32,767 x unseen.
    pub fn net_charge(&self) -> (i128, i128) {
        let seen = self.charge_in as i128 - self.charge_out as i128;
        (seen - 32_768 * self.unseen as i128, seen + 32_767 * self.unseen as i128)
    }
}

impl Reply {
    pub fn command(&self) -> u8 {
        self.bus[1]
    }

    // The verdict in words, with what a word that differs is held against.
    pub fn meaning(&self) -> String {
        let words = match self.verdict {
            1 => "not judged: an address byte is wrong",
            2 => "not judged: the PEC is wrong",
            3 => "not judged: only Voltage, Current and BatteryStatus are",
            4 => "agrees",
            5 => return self.difference(),
            _ if self.command() == BATTERY_STATUS => "cannot tell: an alarm is unknown at this tick",
            _ => "cannot tell: this tick was not seen",
        };
        words.to_string()
    }

    fn difference(&self) -> String {
        match (self.command(), &self.sample) {
            (VOLTAGE, Some(s)) => {
                let cells: Vec<String> = s.volts.iter().map(|v| v.to_string()).collect();
                format!("differs from the sum of the sample's cells, {} mV", cells.join(" + "))
            }
            (CURRENT, Some(s)) => format!("differs from the sample's current, {} mA", s.current),
            _ => "differs: an alarm that is held reads 0, or OTA is clear and reads 1".to_string(),
        }
    }
}

// The report's bytes, from their hex digits.
fn report_bytes(digits: &str) -> Option<Vec<u8>> {
    if digits.len() != 374 || !digits.bytes().all(|d| d.is_ascii_hexdigit()) {
        return None;
    }
    (0..187).map(|i| u8::from_str_radix(&digits[2 * i..2 * i + 2], 16).ok()).collect()
}

// The number of `size` bytes at `at`.
fn number(report: &[u8], at: usize, size: usize) -> u64 {
    report[at..at + size].iter().rev().fold(0, |sum, &byte| sum << 8 | byte as u64)
}

fn flag(value: u8) -> Option<Flag> {
    [Flag::Clear, Flag::Held, Flag::Unknown].get(value as usize).copied()
}

// FFFFFFFFh is no tick.
fn first_tick(row: &[u8], at: usize) -> Option<u32> {
    Some(number(row, at, 4) as u32).filter(|&tick| tick != u32::MAX)
}

fn rule(number: usize, row: &[u8], (threshold, recovery, time): (i32, i32, u16)) -> Option<Rule> {
    let (alert, status) = (flag(row[0])?, flag(row[1])?);
    let (first_possible, first_held) = (first_tick(row, 2), first_tick(row, 6));
    Some(Rule { number, threshold, recovery, time, alert, status, first_possible, first_held })
}

fn replies(sections: &[Section], trace: &[u8], verdicts: &str) -> Option<Vec<Reply>> {
    let mut samples = sections[3].records(trace).map(sample_of).peekable();
    let mut found = Vec::new();
    for (record, verdict) in sections[2].records(trace).zip(verdicts.bytes()) {
        let (tick, bus) = reply_of(record);
        while samples.next_if(|s| s.tick < tick).is_some() {}
        let sample = samples.peek().filter(|s| s.tick == tick).cloned();
        let verdict = Some(verdict).filter(|v| (b'1'..=b'6').contains(v))? - b'0';
        found.push(Reply { tick, bus, verdict, sample });
    }
    Some(found)
}

// None if this is no answer to the trace.
pub fn read(trace: &[u8], report: &str, verdicts: &str) -> Option<Accepted> {
    let sections = sections(trace);
    let report = report_bytes(report)?;
    if !whole(&sections, trace) || sections[2].count != verdicts.len() {
        return None;
    }
    let settings = sections[0].records(trace).map(rule_of);
    let rows = report.chunks_exact(10).zip(settings).enumerate();
    Some(Accepted {
        cells: trace[1],
        idle: idle_of(trace),
        rules: rows.map(|(i, (row, setting))| rule(i, row, setting)).collect::<Option<_>>()?,
        charge_mosfet: flag(report[160])?,
        discharge_mosfet: flag(report[161])?,
        fuse: flag(report[162])?,
        charge_in: number(&report, 163, 8),
        charge_out: number(&report, 171, 8),
        unseen: number(&report, 179, 4) as u32,
        ticks: number(&report, 183, 4) as u32,
        replies: replies(&sections, trace, verdicts)?,
    })
}
