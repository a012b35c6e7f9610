// A trace as text. Bytes whose sections are whole get a line for each record, the others lines of bytes.
use crate::names::{reply_text, RULES};
use crate::trace_bytes::{Sample, Trace};
use crate::trace_layout::{hole_of, idle_of, reply_of, rule_of, sample_of, sections, whole, Section, NAMES};
use std::fmt::Display;

fn spaced<T: Display>(numbers: &[T]) -> String {
    numbers.iter().map(|x| format!(" {x}")).collect()
}

fn rule_line(rule: usize, setting: (i32, i32, u16)) -> String {
    let (threshold, recovery, time) = setting;
    format!("rule {} threshold {threshold} recovery {recovery} time {time}", RULES[rule].short)
}

fn ticks_text(first: u32, last: u32) -> String {
    if first == last { first.to_string() } else { format!("{first}..{last}") }
}

fn hole_line(hole: (u32, u32)) -> String {
    format!("hole {}", ticks_text(hole.0, hole.1))
}

fn hex(bytes: &[u8]) -> String {
    bytes.iter().map(|byte| format!(" {byte:02X}")).collect()
}

fn reply_line(reply: (u32, [u8; 6])) -> String {
    format!("reply {}{}  # {}", reply.0, hex(&reply.1), reply_text(&reply.1))
}

// The samples from that of `s` to tick `last`, all with its readings.
fn sample_line(s: &Sample, last: u32) -> String {
    let (ticks, volts, temps) = (ticks_text(s.tick, last), spaced(&s.volts), spaced(&s.temps));
    format!("sample {ticks} current {} board {} volts{volts} temps{temps}", s.current, s.board)
}

fn record_line(section: usize, index: usize, record: &[u8]) -> String {
    match section {
        0 => rule_line(index, rule_of(record)),
        1 => hole_line(hole_of(record)),
        2 => {
            let (tick, bus) = reply_of(record);
            format!("reply {tick} {}", reply_text(&bus))
        }
        _ => {
            let sample = sample_of(record);
            sample_line(&sample, sample.tick)
        }
    }
}

fn trace_of(sections: &[Section], bytes: &[u8]) -> Trace {
    let mut trace = Trace { version: bytes[0], idle: idle_of(bytes), ..Trace::new(bytes[1]) };
    for (rule, record) in trace.rules.iter_mut().zip(sections[0].records(bytes)) {
        *rule = rule_of(record);
    }
    trace.holes = sections[1].records(bytes).map(hole_of).collect();
    trace.replies = sections[2].records(bytes).map(reply_of).collect();
    trace.samples = sections[3].records(bytes).map(sample_of).collect();
    trace
}

fn head_lines(trace: &Trace) -> Vec<String> {
    let mut lines = Vec::new();
    if trace.version != 1 {
        lines.push(format!("version {}", trace.version));
    }
    lines.push(format!("cells {}", trace.cells));
    lines.push(format!("idle {} mA", trace.idle));
    let set = trace.rules.iter().enumerate().filter(|r| *r.1 != (0, 0, 0));
    lines.extend(set.map(|(rule, &setting)| {
        format!("{}  # rule {rule}, {}, in {}", rule_line(rule, setting), RULES[rule].long, RULES[rule].unit)
    }));
    lines
}

// How many samples from the first on have its readings at the ticks that follow, up to and with tick `last`.
fn run_length(samples: &[Sample], last: u32) -> usize {
    let first = &samples[0];
    let follows = |(k, s): &(usize, &Sample)| {
        let tick = first.tick as u64 + *k as u64;
        let same = s.current == first.current && s.board == first.board && s.volts == first.volts && s.temps == first.temps;
        *k == 0 || same && s.tick as u64 == tick && s.tick <= last
    };
    samples.iter().enumerate().take_while(follows).count()
}

// Holes, samples and replies by tick, each kind in the order of its section.
fn record_lines(trace: &Trace) -> Vec<String> {
    let (mut holes, mut replies, mut samples) = (&trace.holes[..], &trace.replies[..], &trace.samples[..]);
    let mut lines = Vec::new();
    loop {
        let hole = holes.first().map_or(u64::MAX, |h| h.0 as u64);
        let reply = replies.first().map_or(u64::MAX, |r| r.0 as u64);
        let sample = samples.first().map_or(u64::MAX, |s| s.tick as u64);
        let least = hole.min(reply).min(sample);
        if least == u64::MAX {
            return lines;
        } else if hole == least {
            lines.push(hole_line(holes[0]));
            holes = &holes[1..];
        } else if sample == least {
            let count = run_length(samples, reply.min(hole).min(u32::MAX as u64) as u32);
            lines.push(sample_line(&samples[0], samples[count - 1].tick));
            samples = &samples[count..];
        } else {
            lines.push(reply_line(replies[0]));
            replies = &replies[1..];
        }
    }
}

// The bytes from `start` on, 16 a line.
fn rest_lines(bytes: &[u8], start: usize) -> Vec<String> {
    bytes[start..].chunks(16).enumerate().map(|(k, part)| format!("bytes{}  # byte {}", hex(part), start + 16 * k)).collect()
}

// Lines of bytes, with what they are as far as the sections can be told.
fn byte_lines(sections: &[Section], bytes: &[u8]) -> Vec<String> {
    if bytes.len() < 4 {
        return rest_lines(bytes, 0);
    }
    let (version, cells, idle) = (bytes[0], bytes[1], idle_of(bytes));
    let mut lines = vec![format!("bytes{}  # version {version}, cells {cells}, idle {idle} mA", hex(&bytes[..4]))];
    let mut at = 4;
    for (k, section) in sections.iter().enumerate() {
        at = section.place(0);
        lines.push(format!("bytes{}  # {}: {}", hex(&bytes[at - 2..at]), NAMES[k], section.count));
        if k == 0 && section.count != 16 {
            break;
        }
        for (index, record) in section.records(bytes).enumerate() {
            lines.push(format!("bytes{}  # {}", hex(record), record_line(k, index, record)));
            at += section.width;
        }
    }
    lines.extend(rest_lines(bytes, at));
    lines
}

pub fn disassemble(bytes: &[u8]) -> String {
    let sections = sections(bytes);
    let mut lines;
    if whole(&sections, bytes) {
        let trace = trace_of(&sections, bytes);
        lines = head_lines(&trace);
        lines.push(String::new());
        lines.extend(record_lines(&trace));
        lines.extend(rest_lines(bytes, sections[3].end()));
    } else {
        lines = byte_lines(&sections, bytes);
    }
    lines.iter().map(|line| format!("{}\n", line.trim_end())).collect()
}
