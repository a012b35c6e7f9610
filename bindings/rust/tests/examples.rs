// The captures of examples/ against their answers, which were worked out by hand.
use buttmitrel::{judge, judge_into, net_charge, reply_count, Flag, LiveFeed, Report, Verdict, RULE_SHORT_NAMES};
use std::fs;
use std::path::{Path, PathBuf};

fn root() -> PathBuf {
    Path::new(env!("CARGO_MANIFEST_DIR")).join("../..")
}

// The captures of a folder: name, trace and the lines of the answer.
fn captures(folder: &str) -> Vec<(String, Vec<u8>, Vec<String>)> {
    let files = fs::read_dir(root().join(folder)).unwrap().map(|file| file.unwrap().path());
    let traces = files.filter(|path| path.extension() == Some("trace".as_ref()));
    traces
        .map(|path| {
            let answer = fs::read_to_string(path.with_extension("answer")).unwrap();
            let name = path.file_stem().unwrap().to_string_lossy().into_owned();
            (name, fs::read(&path).unwrap(), answer.split('\n').map(String::from).collect())
        })
        .collect()
}

// The digits that the program writes for a report, from its fields.
fn digits(report: &Report) -> String {
    let mut bytes = Vec::new();
    for rule in &report.rules {
        bytes.extend([rule.alert as u8, rule.status as u8]);
        bytes.extend(rule.first_possible_tick.unwrap_or(u32::MAX).to_le_bytes());
        bytes.extend(rule.first_held_tick.unwrap_or(u32::MAX).to_le_bytes());
    }
    let (outputs, totals) = (report.outputs, report.totals);
    bytes.extend([outputs.charge_mosfet_open, outputs.discharge_mosfet_open, outputs.fuse_commanded].map(|flag| flag as u8));
    bytes.extend(totals.charge_in_mas.to_le_bytes());
    bytes.extend(totals.charge_out_mas.to_le_bytes());
    bytes.extend(totals.unseen_ticks.to_le_bytes());
    bytes.extend(totals.ticks.to_le_bytes());
    bytes.iter().map(|byte| format!("{byte:02x}")).collect()
}

#[test]
fn accepted_captures() {
    let captures = captures("examples");
    assert_eq!(captures.len(), 6);
    for (name, trace, answer) in captures {
        let report = judge(&trace).expect(&name);
        let verdicts: String = report.verdicts.iter().map(|&v| (v as u8).to_string()).collect();
        assert_eq!(["accepted", &digits(&report), &verdicts, ""], answer[..], "{name}");
        assert_eq!(reply_count(&trace), Ok(report.verdicts.len() as u32), "{name}");
    }
}

#[test]
fn refused_captures() {
    let captures = captures("examples/refused");
    assert_eq!(captures.len(), 11);
    for (name, trace, answer) in captures {
        let refused = judge(&trace).unwrap_err();
        assert_eq!([&format!("refused {} at {}", refused.number, refused.place), ""], answer[..], "{name}");
        assert_eq!(net_charge(&trace), Err(refused), "{name}");
        let counted = matches!(refused.number, 7..=10);
        assert_eq!(reply_count(&trace).err(), if counted { None } else { Some(refused) }, "{name}");
    }
}

fn u16_at(bytes: &[u8], at: usize) -> u16 {
    u16::from_le_bytes([bytes[at], bytes[at + 1]])
}

fn u32_at(bytes: &[u8], at: usize) -> u32 {
    u32::from_le_bytes([bytes[at], bytes[at + 1], bytes[at + 2], bytes[at + 3]])
}

// A feed of an accepted trace's samples and holes, by tick.
fn fed(trace: &[u8]) -> LiveFeed {
    let cells = trace[1] as usize;
    let holes_end = 168 + 8 * u16_at(trace, 166) as usize;
    let samples_at = holes_end + 4 + 10 * u16_at(trace, holes_end) as usize;
    let mut holes = trace[168..holes_end].chunks_exact(8).peekable();
    let mut feed = LiveFeed::begin(trace[1], u16_at(trace, 2), &trace[6..166]).unwrap();
    for sample in trace[samples_at..].chunks_exact(8 + 4 * cells) {
        let tick = u32_at(sample, 0);
        while let Some(hole) = holes.next_if(|hole| u32_at(hole, 0) < tick) {
            feed.hole(u32_at(hole, 4)).unwrap();
        }
        let volts: Vec<u16> = (0..cells).map(|cell| u16_at(sample, 8 + 2 * cell)).collect();
        let temps: Vec<i16> = (cells..2 * cells).map(|cell| u16_at(sample, 8 + 2 * cell) as i16).collect();
        feed.sample(tick, u16_at(sample, 4) as i16, u16_at(sample, 6) as i16, &volts, &temps).unwrap();
    }
    holes.for_each(|hole| feed.hole(u32_at(hole, 4)).unwrap());
    feed
}

#[test]
fn fed_captures() {
    for (name, trace, _) in captures("examples") {
        let (report, live) = (judge(&trace).unwrap(), fed(&trace).report());
        assert_eq!((report.outputs, report.totals), (live.outputs, live.totals), "{name}");
        let flags = report.rules.map(|rule| (rule.alert, rule.status));
        assert_eq!(flags, live.rules.map(|rule| (rule.alert, rule.status)), "{name}");
    }
}

// The numbers of examples/README.md.
#[test]
fn fields_of_latched_fuse() {
    let trace = fs::read(root().join("examples/latched_fuse.trace")).unwrap();
    let (report, net) = (judge(&trace).unwrap(), net_charge(&trace).unwrap());
    let (cov, sov) = (report.rules[0], report.rules[10]);
    assert_eq!((cov.status, cov.first_possible_tick, cov.first_held_tick), (Flag::Clear, Some(6), Some(6)));
    assert_eq!((sov.status, sov.first_possible_tick, sov.first_held_tick), (Flag::Held, Some(8), Some(8)));
    assert_eq!(
        (report.outputs.charge_mosfet_open, report.outputs.discharge_mosfet_open, report.outputs.fuse_commanded),
        (Flag::Held, Flag::Held, Flag::Held)
    );
    assert_eq!((report.totals.charge_in_mas, report.totals.charge_out_mas, report.totals.unseen_ticks), (18_000, 0, 1));
    assert_eq!((net.least_net_charge_mas, net.greatest_net_charge_mas), (-14_768, 50_767));
    assert!(report.verdicts.contains(&Verdict::Differs));
}

// 12 comes first, 13 after the sections and before the rules; a refused call writes nothing.
#[test]
fn buffers_of_other_lengths() {
    let trace = fs::read(root().join("examples/refused/07_rule_limits.trace")).unwrap();
    let replies = reply_count(&trace).unwrap() as usize;
    for (report_len, verdicts_len, number) in [(186, replies + 1, 12), (188, replies, 12), (187, replies + 1, 13), (187, replies, 7)] {
        let (mut report, mut verdicts) = (vec![77; report_len], vec![88; verdicts_len]);
        assert_eq!(judge_into(&trace, &mut report, &mut verdicts).unwrap_err().number, number);
        assert_eq!((report, verdicts), (vec![77; report_len], vec![88; verdicts_len]));
    }
    assert_eq!(judge_into(&trace[..3], &mut [0; 187], &mut []).unwrap_err().number, 1);
    assert_eq!(judge_into(&trace[..3], &mut [], &mut []).unwrap_err().number, 12);
}

#[test]
fn names_of_the_document() {
    let document = fs::read_to_string(root().join("docs/FORMAT.md")).unwrap();
    let table = document.split("| no. | name |").nth(1).unwrap();
    let rows = table.lines().skip(2).take(16).map(|row| row.split(" | ").nth(1).unwrap());
    assert!(rows.eq(RULE_SHORT_NAMES));
}
