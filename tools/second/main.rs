//! An independent second program that judges battery-bus traces, records them and sums up cells, written
//! from the papers alone, and the comparison of it with the proved program and library.

mod answer;
mod bytes;
mod candidates;
mod cases;
mod cells;
mod cells_cases;
mod check;
mod compare;
mod count;
mod fast;
mod generate;
mod histories;
mod lent;
mod library;
mod random;
mod read;
mod recorder;
mod recorder_cases;
mod reply;
mod report;
mod rules;
mod shrink;
mod slow;
mod states;
mod trace;
mod voltages;

use compare::Difference;
use count::Counts;
use random::Random;
use std::io::{Read, Write};
use std::process::exit;

const USAGE: &str = "usage: second judge < TRACE
       second cases
       second slow SEED COUNT
       second sweep PROGRAM
       second compare SEED COUNT PROGRAM
       second recorder SEED COUNT
       second cells SEED COUNT
       second trace SEED INDEX > TRACE";

fn judge_stdin() {
    let mut input = Vec::new();
    if let Err(error) = std::io::stdin().read_to_end(&mut input) {
        eprintln!("{}", error);
        exit(2);
    }
    print!("{}", report::program_output(&fast::judge_input(&input)));
}

/// Prints the smallest trace that still differs, a long one to a file, and both outputs; then ends.
fn show(name: &str, input: &[u8], find: &dyn Fn(&[u8]) -> Option<Difference>) -> ! {
    let small = shrink::shrink(input, &|bytes| find(bytes).is_some());
    println!("{} differs, {} bytes shrunk to {}:", name, input.len(), small.len());
    if small.len() <= 4_096 {
        println!("{}", bytes::hex(&small));
    } else {
        let path = std::env::temp_dir().join("second-difference.trace");
        println!("{}: {:?}", path.display(), std::fs::write(&path, &small));
    }
    if let Some(difference) = find(&small) {
        println!("second program:\n{:.4000}", difference.ours);
        println!("{}:\n{:.4000}", difference.between, difference.theirs);
    }
    exit(1);
}

fn finish(name: &str, seed: u64, summary: String, missing: Vec<String>) {
    println!("{}, seed {}: {}", name, seed, summary);
    if !missing.is_empty() {
        println!("never came up: {}", missing.join(", "));
        exit(1);
    }
}

fn compare_slow(seed: u64, count: u64) {
    let mut counts = Counts::default();
    for index in 0..count {
        let mut random = Random::for_trace(!seed, index);
        let trace = if index % 8 == 7 { generate::long(&mut random) } else { generate::small(&mut random) };
        let input = trace.encode();
        let choice = random.next();
        let find = |bytes: &[u8]| compare::with_slow(bytes, choice);
        if find(&input).is_some() {
            show(&format!("trace {} of seed {}", index, seed), &input, &find);
        }
        if compare::slow_takes(&input) {
            counts.add(&input);
        }
    }
    finish("fast and slow agree", seed, counts.summary(), counts.missing());
}

fn compare_proved(seed: u64, count: u64, program: &str) {
    let mut counts = Counts::default();
    for index in 0..count {
        let input = generate::bytes(&mut Random::for_trace(seed, index));
        let find = |bytes: &[u8]| compare::with_proved(program, bytes);
        if find(&input).is_some() {
            show(&format!("trace {} of seed {}", index, seed), &input, &find);
        }
        counts.add(&input);
    }
    finish("second program, program and library agree", seed, counts.summary(), counts.missing_of_all());
}

fn compare_sweep(program: &str) {
    let traces = generate::sweep::sweep();
    let find = |bytes: &[u8]| compare::with_slow(bytes, 1).or_else(|| compare::with_proved(program, bytes));
    for (index, input) in traces.iter().enumerate() {
        if find(input).is_some() {
            show(&format!("trace {} of the sweep", index), input, &find);
        }
    }
    println!("second program, program and library agree on the {} traces of the sweep", traces.len());
}

fn compare_recorder(seed: u64, count: u64) {
    let mut counts = histories::Counts::default();
    for index in 0..count {
        if let Err(difference) = histories::history(seed, index, &mut counts) {
            println!("history {} of seed {} differs: {}", index, seed, difference);
            exit(1);
        }
    }
    finish("second program and library agree on the recorder", seed, counts.summary(), counts.missing());
}

fn compare_cells(seed: u64, count: u64) {
    let mut counts = voltages::Counts::default();
    if let Err(difference) = voltages::compare(seed, count, &mut counts) {
        println!("a list of seed {} differs: {}", seed, difference);
        exit(1);
    }
    finish("second program and library agree on the cells", seed, counts.summary(), counts.missing());
}

fn number(text: &str) -> u64 {
    text.parse().unwrap_or_else(|_| {
        eprintln!("{}", USAGE);
        exit(2)
    })
}

fn main() {
    let words: Vec<String> = std::env::args().skip(1).collect();
    let words: Vec<&str> = words.iter().map(|word| word.as_str()).collect();
    match words.as_slice() {
        ["judge"] => judge_stdin(),
        ["cases"] => exit(i32::from(cases::run() != 0)),
        ["slow", seed, count] => compare_slow(number(seed), number(count)),
        ["sweep", program] => compare_sweep(program),
        ["compare", seed, count, program] => compare_proved(number(seed), number(count), program),
        ["recorder", seed, count] => compare_recorder(number(seed), number(count)),
        ["cells", seed, count] => compare_cells(number(seed), number(count)),
        ["trace", seed, index] => {
            let input = generate::bytes(&mut Random::for_trace(number(seed), number(index)));
            exit(i32::from(std::io::stdout().write_all(&input).is_err()));
        }
        _ => {
            eprintln!("{}", USAGE);
            exit(2);
        }
    }
}
