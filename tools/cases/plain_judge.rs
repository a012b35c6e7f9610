// Judges the trace on standard input with the plain judge and writes what paper 01's program writes. With file names it
// judges each file and writes its name after the answer.
#[path = "../bench/plain_judge.rs"]
mod plain_judge;

use plain_judge::{judge, reply_count};
use std::fs::File;
use std::io::{Read, Write};

fn answer(trace: &[u8]) -> String {
    if trace.len() > 65_536 {
        return "refused 14 at 0\n".to_string();
    }
    let (mut report, mut verdicts) = ([0; 187], vec![0; reply_count(trace)]);
    match judge(trace, &mut report, &mut verdicts) {
        Err((number, place)) => format!("refused {number} at {place}\n"),
        Ok(()) => {
            let hex: String = report.iter().map(|byte| format!("{byte:02x}")).collect();
            let digits: String = verdicts.iter().map(|v| v.to_string()).collect();
            format!("accepted\n{hex}\n{digits}\n")
        }
    }
}

fn read(source: impl Read) -> Vec<u8> {
    let mut trace = Vec::new();
    source.take(65_537).read_to_end(&mut trace).expect("a trace");
    trace
}

fn main() {
    let files: Vec<String> = std::env::args().skip(1).collect();
    let mut text = String::new();
    if files.is_empty() {
        text += &answer(&read(std::io::stdin()));
    }
    for name in files {
        text += &answer(&read(File::open(&name).expect("a file")));
        text += &(name + "\n");
    }
    std::io::stdout().write_all(text.as_bytes()).expect("standard output");
}
