// `round_trip SEED COUNT DIR`: random traces, spoiled ones and other byte strings to text and back. The first 200 are also
// written to the directory.
#[path = "../trace/names.rs"]
mod names;
#[path = "../cases/random_trace.rs"]
mod random_trace;
mod lines;
mod to_trace;
#[path = "../trace/bytes.rs"]
mod trace_bytes;
#[path = "../trace/layout.rs"]
mod trace_layout;
mod to_text;

use random_trace::{random_trace, spoiled, Random};
use to_trace::assemble;
use trace_layout::{sections, whole};
use to_text::disassemble;

fn random_bytes(x: &mut Random, count: i64) -> Vec<u8> {
    (0..count).map(|_| x.next() as u8).collect()
}

// Any head, and sections of any bytes with a few records each.
fn random_sections(x: &mut Random) -> Vec<u8> {
    let mut bytes = random_bytes(x, 4);
    bytes[1] = x.pick(&[0, 1, 3, 12, 13, 255]);
    let widths = [10, 8, 10, 8 + 4 * bytes[1] as i64];
    for (k, width) in widths.into_iter().enumerate() {
        let count = if k == 0 { 16 } else { x.within(0, 3) };
        bytes.extend((count as u16).to_le_bytes());
        bytes.extend(random_bytes(x, count * width));
    }
    let left_over = x.pick(&[0, 0, 1, 40]);
    bytes.extend(random_bytes(x, left_over));
    bytes
}

fn random_case(x: &mut Random) -> Vec<u8> {
    let long = x.one_in(20);
    let trace = random_trace(x, long);
    let mut bytes = match x.within(0, 7) {
        0 | 1 => trace.bytes(),
        2 | 3 => spoiled(x, &trace),
        4 => random_sections(x),
        5 => {
            let length = x.pick(&[0, 1, 3, 4, 5, 6, 30, 400]);
            random_bytes(x, length)
        }
        6 => trace.bytes()[..x.within(0, trace.bytes().len() as i64) as usize].to_vec(),
        _ => [&trace.bytes()[..], &random_sections(x)].concat(),
    };
    if !bytes.is_empty() && x.one_in(2) {
        let at = x.within(0, bytes.len() as i64 - 1) as usize;
        bytes[at] = x.next() as u8;
    }
    bytes
}

// Whether the bytes come back, and the same text from them.
fn comes_back(bytes: &[u8]) -> bool {
    let text = disassemble(bytes);
    match assemble(&text) {
        Ok(back) => back == bytes && disassemble(&back) == text,
        Err(fault) => {
            println!("line {}: {}", fault.line, fault.message);
            false
        }
    }
}

fn main() {
    let arguments: Vec<String> = std::env::args().skip(1).collect();
    let number = |k: usize| arguments[k].parse::<u64>().expect("a number");
    let (mut x, count) = (Random(number(0)), number(1));
    let mut records = 0;
    for case in 0..count {
        let bytes = random_case(&mut x);
        if !comes_back(&bytes) {
            println!("case {case} does not come back; its text:\n{}", disassemble(&bytes));
            std::process::exit(1);
        }
        records += whole(&sections(&bytes), &bytes) as u64;
        if case < 200 {
            std::fs::write(format!("{}/{case}.trace", arguments[2]), &bytes).expect("a file");
        }
    }
    println!("{count} byte strings came back, {records} of them as records");
}
