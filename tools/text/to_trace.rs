// The bytes of a trace from its text: a line for each record, or lines of bytes alone.
use crate::names::{BATTERY_STATUS, COMMANDS, CURRENT, RULES};
use crate::lines::{Fault, Span, Words};
use crate::trace_bytes::{seal, Sample, Trace};
use std::ops::RangeInclusive;

const BYTE: RangeInclusive<i64> = 0..=255;
const UNSIGNED: RangeInclusive<i64> = 0..=65_535;
const SIGNED: RangeInclusive<i64> = -32_768..=32_767;
const SETTING: RangeInclusive<i64> = i32::MIN as i64..=i32::MAX as i64;
const TICK: RangeInclusive<i64> = 0..=u32::MAX as i64;
const MOST_RECORDS: usize = 65_535;

// What the lines so far gave. `named` has the heads and rules that have been given, `after` the bytes after the sections.
struct Text {
    trace: Trace,
    named: Vec<String>,
    after: Vec<u8>,
    bytes_seen: bool,
}

impl Text {
    // Each head and rule stands once.
    fn name_once(&mut self, words: &Words, name: &str) -> Result<(), Fault> {
        if self.named.iter().any(|n| n == name) {
            return words.fault(format!("{name} was given before"));
        }
        self.named.push(name.to_string());
        Ok(())
    }

    fn take_head(&mut self, words: &mut Words, name: &str) -> Result<(), Fault> {
        self.name_once(words, name)?;
        match name {
            "version" => self.trace.version = words.number("version", BYTE)? as u8,
            "cells" => self.trace.cells = words.number("cells", BYTE)? as u8,
            _ => {
                self.trace.idle = words.number("idle", UNSIGNED)? as u16;
                words.skip("mA");
            }
        }
        words.end()
    }

    fn take_rule(&mut self, words: &mut Words) -> Result<(), Fault> {
        let name = words.before("threshold").join(" ");
        let rule = match (0..16).find(|&i| RULES[i].short == name || i.to_string() == name) {
            Some(rule) => rule,
            None => {
                let names: Vec<&str> = RULES.iter().map(|r| r.short).collect();
                return words.fault(format!("there is no rule '{name}'; the rules are {}", names.join(", ")));
            }
        };
        self.name_once(words, &format!("rule {}", RULES[rule].short))?;
        words.expect("threshold")?;
        let threshold = words.number("threshold", SETTING)? as i32;
        let recovery = if words.skip("recovery") { words.number("recovery", SETTING)? as i32 } else { 0 };
        words.expect("time")?;
        self.trace.rules[rule] = (threshold, recovery, words.number("time", UNSIGNED)? as u16);
        words.end()
    }

    fn take_hole(&mut self, words: &mut Words) -> Result<(), Fault> {
        let (first, last) = words.span("tick", TICK)?;
        room(words, "holes", self.trace.holes.len() + 1)?;
        self.trace.holes.push((first as u32, last as u32));
        words.end()
    }

    fn take_reply(&mut self, words: &mut Words) -> Result<(), Fault> {
        let tick = words.number("tick", TICK)? as u32;
        let named = COMMANDS.iter().position(|name| words.peek() == Some(name));
        let bus = match named {
            Some(command) => {
                words.word("command")?;
                seal(command as u8, command_word(words, command as u8)?)
            }
            None => six_bytes(words)?,
        };
        room(words, "replies", self.trace.replies.len() + 1)?;
        self.trace.replies.push((tick, bus));
        words.end()
    }

    fn take_sample(&mut self, words: &mut Words) -> Result<(), Fault> {
        let (first, last) = words.span("tick", TICK)?;
        if last < first {
            return words.fault(format!("the ticks {first}..{last} fall"));
        }
        if !self.named.iter().any(|n| n == "cells") {
            return words.fault("a sample needs a line 'cells' before it".to_string());
        }
        let cells = self.trace.cells as usize;
        words.expect("current")?;
        let current = words.span("current", SIGNED)?;
        words.expect("board")?;
        let board = words.span("board", SIGNED)?;
        words.expect("volts")?;
        let volts = cell_spans(words, "volts", "temps", UNSIGNED, cells)?;
        words.expect("temps")?;
        let temps = cell_spans(words, "temps", "", SIGNED, cells)?;
        words.end()?;
        let steps = last - first;
        let ramps = [&[current, board], &volts[..], &temps[..]].concat();
        if steps == 0 && ramps.iter().any(|r| r.0 != r.1) {
            return words.fault("a reading that moves needs more than one tick".to_string());
        }
        room(words, "samples", self.trace.samples.len() + steps as usize + 1)?;
        self.trace.samples.extend((0..=steps).map(|step| Sample {
            tick: (first + step) as u32,
            current: moved(current, step, steps) as i16,
            board: moved(board, step, steps) as i16,
            volts: volts.iter().map(|v| moved(*v, step, steps) as u16).collect(),
            temps: temps.iter().map(|t| moved(*t, step, steps) as i16).collect(),
        }));
        Ok(())
    }

    fn take_line(&mut self, words: &mut Words) -> Result<(), Fault> {
        let kind = match words.peek() {
            Some(_) => words.word("a record")?,
            None => return Ok(()),
        };
        if kind == "bytes" {
            self.bytes_seen = true;
            self.after.extend(words.bytes()?);
            return Ok(());
        }
        if self.bytes_seen {
            return words.fault(format!("'{kind}' after 'bytes'; lines of bytes come last"));
        }
        match kind {
            "version" | "cells" | "idle" => self.take_head(words, kind),
            "rule" => self.take_rule(words),
            "hole" => self.take_hole(words),
            "reply" => self.take_reply(words),
            "sample" => self.take_sample(words),
            _ => {
                let kinds = "version, cells, idle, rule, hole, reply, sample or bytes";
                words.fault(format!("'{kind}' begins no line; {kinds} does"))
            }
        }
    }

    fn has_record(&self) -> bool {
        let t = &self.trace;
        !(self.named.is_empty() && t.holes.is_empty() && t.replies.is_empty() && t.samples.is_empty())
    }
}

// The count of a section is two bytes.
fn room(words: &Words, section: &str, count: usize) -> Result<(), Fault> {
    if count > MOST_RECORDS {
        return words.fault(format!("a trace has at most {MOST_RECORDS} {section}"));
    }
    Ok(())
}

// The reading after `step` of `steps` steps: even steps from first to last, rounded towards the first.
fn moved(span: Span, step: i64, steps: i64) -> i64 {
    span.0 + (span.1 - span.0) * step / steps.max(1)
}

// A reading for each cell. `9x3500` stands for nine cells, and one reading alone for all cells.
fn cell_spans(words: &mut Words, what: &str, end: &str, range: RangeInclusive<i64>, cells: usize) -> Result<Vec<Span>, Fault> {
    let mut spans = Vec::new();
    for word in words.before(end) {
        let (count, reading) = word.split_once('x').unwrap_or(("1", word));
        let count = words.parse("number of cells", count, BYTE)? as usize;
        let span = words.parse_span(what, reading, range.clone())?;
        spans.extend(vec![span; count]);
    }
    match spans.len() {
        1 => Ok(vec![spans[0]; cells]),
        n if n == cells => Ok(spans),
        n => words.fault(format!("{n} {what} for {cells} cells")),
    }
}

// The word of a named command: four hex digits and h, or a decimal number, which is signed for Current.
fn command_word(words: &mut Words, command: u8) -> Result<u16, Fault> {
    let word = words.word("the command's word")?;
    if let Some(digits) = word.strip_suffix('h') {
        return match u16::from_str_radix(digits, 16) {
            Ok(x) if digits.len() == 4 && !digits.starts_with('+') => Ok(x),
            _ => words.fault(format!("'{word}' is not a word of four hex digits and h")),
        };
    }
    match command {
        BATTERY_STATUS => words.fault(format!("BatteryStatus '{word}' is not a word of four hex digits and h")),
        CURRENT => Ok(words.parse("Current", word, SIGNED)? as u16),
        _ => Ok(words.parse(COMMANDS[command as usize], word, UNSIGNED)? as u16),
    }
}

fn six_bytes(words: &mut Words) -> Result<[u8; 6], Fault> {
    if words.peek().map_or(false, |w| w.len() > 2) {
        let word = words.word("command")?;
        return words.fault(format!("'{word}' is neither a command's name nor a byte"));
    }
    let bytes = words.bytes()?;
    if bytes.len() != 6 {
        return words.fault(format!("a reply has 6 bytes and not {}", bytes.len()));
    }
    Ok(std::array::from_fn(|i| bytes[i]))
}

pub fn assemble(source: &str) -> Result<Vec<u8>, Fault> {
    let mut text = Text { trace: Trace::new(0), named: Vec::new(), after: Vec::new(), bytes_seen: false };
    let mut last = 0;
    for (k, line) in source.lines().enumerate() {
        last = k + 1;
        text.take_line(&mut Words::new(last, line))?;
    }
    if !text.has_record() {
        return Ok(text.after);
    }
    if !text.named.iter().any(|n| n == "cells") {
        return Err(Fault { line: last, message: "the text ends with no line 'cells'".to_string() });
    }
    Ok([text.trace.bytes(), text.after].concat())
}
