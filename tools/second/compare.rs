//! The second program against the proved program and the proved library, and fast against slow.

use crate::bytes::hex;
use crate::fast;
use crate::library::{call, patterned, MARGIN};
use crate::random::Random;
use crate::read::{read, Refusal};
use crate::reply::crc8;
use crate::report::{program_output, Judged};
use crate::slow;
use crate::trace::Trace;
use std::io::{ErrorKind, Write};
use std::os::unix::process::ExitStatusExt;
use std::process::{ChildStdin, Command, Stdio};
use std::thread::sleep;
use std::time::Duration;

/// Two answers that differ.
pub struct Difference {
    pub between: String,
    pub ours: String,
    pub theirs: String,
}

fn compare(between: &str, ours: String, theirs: String) -> Option<Difference> {
    if ours == theirs {
        return None;
    }
    Some(Difference { between: between.to_string(), ours, theirs })
}

/// Writes the input, now and then with pauses, so that the program gets it in pieces.
fn feed(stdin: &mut ChildStdin, input: &[u8]) -> std::io::Result<()> {
    if crc8(input) >= 8 {
        return stdin.write_all(input);
    }
    for piece in input.chunks(input.len() / 3 + 1) {
        stdin.write_all(piece)?;
        stdin.flush()?;
        sleep(Duration::from_millis(1));
    }
    Ok(())
}

/// What the program at this path writes for the input.
fn run(program: &str, input: &[u8]) -> std::io::Result<String> {
    let mut child = Command::new(program).stdin(Stdio::piped()).stdout(Stdio::piped()).spawn()?;
    if let Some(mut stdin) = child.stdin.take() {
        // A program that has read more than it takes may end before all is written.
        match feed(&mut stdin, input) {
            Err(error) if error.kind() != ErrorKind::BrokenPipe => return Err(error),
            _ => {}
        }
    }
    let output = child.wait_with_output()?;
    let written = String::from_utf8_lossy(&output.stdout).into_owned();
    match output.status.signal() {
        Some(signal) => Ok(format!("{}ended by signal {}", written, signal)),
        None => Ok(written),
    }
}

pub fn with_program(program: &str, input: &[u8]) -> Option<Difference> {
    let ours = program_output(&fast::judge_input(input));
    let theirs = run(program, input).unwrap_or_else(|error| format!("{}: {}", program, error));
    compare("program", ours, theirs)
}

/// The call's answer and both buffers, as one line.
fn describe(answer: u64, report: &[u8], verdicts: &[u8]) -> String {
    format!("{} at {}, report {}, verdicts {}", answer >> 32, answer as u32, hex(report), hex(verdicts))
}

fn expected(judged: &Result<Judged, Refusal>, report_len: usize, verdicts_len: usize) -> String {
    let mut report = patterned(report_len);
    let mut verdicts = patterned(verdicts_len);
    let answer = match judged {
        Err(refusal) => refusal.answer(),
        Ok(judged) => {
            report[MARGIN..MARGIN + report_len].copy_from_slice(&judged.report());
            verdicts[MARGIN..MARGIN + verdicts_len].copy_from_slice(&judged.verdicts);
            0
        }
    };
    describe(answer, &report, &verdicts)
}

/// The library with a report and verdicts of these lengths.
pub fn with_lengths(trace: &[u8], report_len: usize, verdicts_len: usize) -> Option<Difference> {
    let ours = expected(&fast::judge(trace, report_len, verdicts_len), report_len, verdicts_len);
    let (answer, report, verdicts) = call(trace, report_len, verdicts_len);
    let between = format!("library, report of {}, verdicts of {}", report_len, verdicts_len);
    compare(&between, ours, describe(answer, &report, &verdicts))
}

/// The library with right lengths and with each of them wrong.
pub fn with_library(trace: &[u8]) -> Option<Difference> {
    let count = fast::verdict_count(trace);
    let lengths = [
        (187, count),
        (187, count + 1),
        (187, count.max(1) - 1),
        (187, count + 256),
        (186, count),
        (188, count),
        (0, count),
        (187 + 256, count + 1),
    ];
    lengths.iter().find_map(|(report_len, verdicts_len)| with_lengths(trace, *report_len, *verdicts_len))
}

pub fn with_proved(program: &str, input: &[u8]) -> Option<Difference> {
    with_program(program, input).or_else(|| with_library(input))
}

/// The trace, if it is accepted and the slow form needs at most four million steps for it.
fn for_slow(input: &[u8]) -> Option<(Trace, Judged)> {
    let judged = fast::judge_input(input).ok()?;
    let trace = read(input).ok()?;
    let rules = trace.rules.iter().filter(|rule| rule.time != 0).count() as u64;
    let fillings = 3u64.pow(judged.totals.unseen.min(20));
    let steps = fillings.saturating_mul(u64::from(judged.totals.ticks)).saturating_mul(rules);
    if steps < 4_000_000 {
        Some((trace, judged))
    } else {
        None
    }
}

pub fn slow_takes(input: &[u8]) -> bool {
    for_slow(input).is_some()
}

/// Fast against slow, on traces that the slow form takes.
pub fn with_slow(input: &[u8], seed: u64) -> Option<Difference> {
    let (trace, fast) = for_slow(input)?;
    let slow = slow::judge(&trace, &mut Random::new(seed));
    compare("slow form", program_output(&Ok(fast)), program_output(&Ok(slow)))
}
