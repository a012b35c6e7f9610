// Judges a trace with the proved library; without a trace it feeds a few samples and a hole live.
//
//     ./buttmitrel install
//     cargo run --manifest-path examples/rust/Cargo.toml examples/hidden_over_voltage.trace
use buttmitrel::{judge, net_charge, rule_bytes, LiveFeed, Refused, Rule};
use std::process::ExitCode;

fn judge_trace(trace: &[u8]) -> Result<(), Refused> {
    let (report, net) = (judge(trace)?, net_charge(trace)?);
    let (outputs, verdicts) = (report.outputs, report.verdicts);
    println!("accepted");
    println!("C {} D {} fuse {}", outputs.charge_mosfet_open as u8, outputs.discharge_mosfet_open as u8, outputs.fuse_commanded as u8);
    println!("net {} to {}", net.least_net_charge_mas, net.greatest_net_charge_mas);
    println!("verdicts {}", verdicts.iter().map(|&verdict| (verdict as u8).to_string()).collect::<String>());
    Ok(())
}

fn show(feed: &LiveFeed) {
    let report = feed.report();
    let rule = report.rules[0];
    println!("tick {}: alert {} status {}", report.totals.ticks, rule.alert as u8, rule.status as u8);
}

fn sample(feed: &mut LiveFeed, tick: u32, highest: u16) -> Result<(), Refused> {
    feed.sample(tick, 1500, 300, &[highest, 4140, 4130], &[250, 250, 250])
}

// Cell over voltage above 4,200 mV for three seconds, recovered below 4,100 mV; the other rules are off.
fn feed_live() -> Result<(), Refused> {
    let mut rules = [Rule::OFF; 16];
    rules[0] = Rule { threshold: 4200, recovery: 4100, time: 3 };
    let mut feed = LiveFeed::begin(3, 100, &rule_bytes(&rules))?;
    for (tick, highest) in [(0, 4150), (1, 4250), (2, 4250)] {
        sample(&mut feed, tick, highest)?;
    }
    show(&feed);
    feed.hole(5)?;
    sample(&mut feed, 6, 4150)?;
    show(&feed);
    sample(&mut feed, 6, 4150)
}

// The answer about the file of this name; None if it can't be read.
fn judge_file(path: &str) -> Option<Result<(), Refused>> {
    match std::fs::read(path) {
        Ok(trace) => Some(judge_trace(&trace)),
        Err(why) => {
            eprintln!("{path}: {why}");
            None
        }
    }
}

fn main() -> ExitCode {
    let answer = match std::env::args().nth(1) {
        Some(path) => judge_file(&path),
        None => Some(feed_live()),
    };
    match answer {
        Some(Ok(())) => ExitCode::SUCCESS,
        Some(Err(refused)) => {
            println!("refused {} at {}", refused.number, refused.place);
            ExitCode::from(1)
        }
        None => ExitCode::from(2),
    }
}
