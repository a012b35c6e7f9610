// `text assemble [FILE]` writes the bytes of a trace given as text, `text disassemble [FILE]` the text of bytes.
// Without FILE it reads standard input. The text is explained in examples/README.md.
#[path = "../trace/names.rs"]
mod names;
mod lines;
mod to_trace;
#[path = "../trace/bytes.rs"]
mod trace_bytes;
#[path = "../trace/layout.rs"]
mod trace_layout;
mod to_text;

use std::io::{Read, Write};
use std::process::exit;

fn stop(message: String) -> ! {
    eprintln!("{message}");
    exit(2)
}

fn read(job: &str, file: Option<&String>) -> Vec<u8> {
    let mut bytes = Vec::new();
    let result = match file {
        Some(name) => std::fs::read(name).map(|read| bytes = read),
        None => std::io::stdin().read_to_end(&mut bytes).map(drop),
    };
    if let Err(why) = result {
        stop(format!("{job}: {}: {why}", source(file)));
    }
    bytes
}

fn source(file: Option<&String>) -> &str {
    file.map_or("standard input", |name| name)
}

fn main() {
    let arguments: Vec<String> = std::env::args().skip(1).collect();
    let job = arguments.first().map_or("", |a| a);
    if !matches!(job, "assemble" | "disassemble") || arguments.len() > 2 {
        stop("usage: text assemble|disassemble [FILE]".to_string());
    }
    let file = arguments.get(1);
    let input = read(job, file);
    let output = if job == "disassemble" {
        to_text::disassemble(&input).into_bytes()
    } else {
        match to_trace::assemble(&String::from_utf8_lossy(&input)) {
            Ok(bytes) => bytes,
            Err(fault) => stop(format!("assemble: {}, line {}: {}", source(file), fault.line, fault.message)),
        }
    };
    match std::io::stdout().write_all(&output) {
        Err(why) if why.kind() == std::io::ErrorKind::BrokenPipe => exit(2),
        Err(why) => stop(format!("{job}: the answer can't be written, {why}: look at where standard output goes")),
        Ok(()) => {}
    }
}
