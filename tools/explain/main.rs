// `explain [--json] TRACE ANSWER` says in words, or as JSON, what the judge answered about a trace, given the trace and what the judge
// wrote. Every flag, first tick, total and verdict is the judge's; from the trace come names, ticks and numbers to show.
mod accepted;
mod facts;
mod json;
mod refused;
mod rules;
#[path = "../../bindings/rust/src/meaning.rs"]
mod meaning;
#[path = "../trace/names.rs"]
mod names;
#[allow(dead_code)]
#[path = "../trace/bytes.rs"]
mod trace_bytes;
#[path = "../trace/layout.rs"]
mod trace_layout;

use std::ffi::OsStr;
use std::io::Write;
use std::process::exit;

fn stop(status: i32, message: String) -> ! {
    eprintln!("explain: {message}");
    exit(status)
}

fn read(name: &OsStr) -> Vec<u8> {
    std::fs::read(name).unwrap_or_else(|why| stop(2, format!("{}: {why}", name.to_string_lossy())))
}

// The number and the place of 'refused N at P'.
fn refusal(line: &str) -> Option<(u8, u32)> {
    let (number, place) = line.strip_prefix("refused ")?.split_once(" at ")?;
    Some((number.parse().ok()?, place.parse().ok()?))
}

fn explained(as_json: bool, trace: &[u8], answer: &str) -> Option<String> {
    let lines: Vec<&str> = answer.lines().collect();
    match lines[..] {
        ["accepted", report, verdicts] => {
            let facts = facts::read(trace, report, verdicts)?;
            Some(if as_json { json::accepted(&facts) } else { accepted::text(&facts) })
        }
        [line] => {
            let (number, place) = refusal(line)?;
            let facts = refused::read(trace, number, place);
            Some(if as_json { json::refused(&facts) } else { refused::text(&facts) })
        }
        _ => None,
    }
}

fn main() {
    let arguments: Vec<_> = std::env::args_os().skip(1).collect();
    let (as_json, trace, answer) = match &arguments[..] {
        [flag, trace, answer] if flag == "--json" => (true, trace, answer),
        [trace, answer] => (false, trace, answer),
        _ => stop(2, "usage: explain [--json] TRACE ANSWER".to_string()),
    };
    let (trace, answer) = (read(trace), read(answer));
    match explained(as_json, &trace, &String::from_utf8_lossy(&answer)) {
        Some(text) => std::io::stdout().write_all(text.as_bytes()).unwrap_or_else(|why| match why.kind() {
            std::io::ErrorKind::BrokenPipe => exit(2),
            _ => stop(2, format!("the answer can't be written, {why}: look at where standard output goes")),
        }),
        None => stop(1, "the judge wrote something that is no answer to this trace".to_string()),
    }
}
