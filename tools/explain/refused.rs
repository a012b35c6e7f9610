// A refusal in words, and where in the file to look (paper 01, 'Refusal numbers').
use crate::accepted::tick_text;
use crate::meaning::meaning;
use crate::names::RULES;
use crate::rules::title;
use crate::trace_layout::{hole_of, idle_of, reply_of, rule_of, sample_of, sections, whole, Section, NAMES};

// `look` says where in the file to look, and `byte` is where what is refused begins, for refusals that have one such place.
pub struct Refused {
    pub number: u8,
    pub place: u32,
    pub meaning: &'static str,
    pub look: String,
    pub byte: Option<usize>,
    pub to_do: &'static str,
}

fn to_do(number: u8) -> &'static str {
    match number {
        1 => "give a whole trace, which has at least 172 bytes",
        2 => "write the trace in version 1",
        3 => "give the number of cells in series, 3 to 12",
        4 => "give an idle current of 0 to 32766 mA",
        5 => "correct the count, or add the part of the file that is missing",
        6 => "give all 16 rules; one with time 0 is off",
        7 => "bring its numbers inside the limits, or switch it off with time 0",
        8 => "let each hole begin after the one before it, and end at its first tick or later, before tick 4294967295",
        9 => "cover each tick from 0 on by one sample or one hole; samples and holes each in the order of their ticks",
        10 => "give the replies in the order of their ticks, none after the last tick",
        11 => "correct the count of the samples, or remove the bytes after the last one",
        14 => "cut the capture into shorter ones, or call the library, which takes longer traces",
        17 => "drain the recorder and offer the same tick again; if that is refused too, write its trace and start another",
        _ => "give explain what the program wrote of this trace",
    }
}

// The section that runs past the end is the last that was found, or the next one's count is missing.
fn past_the_end(sections: &[Section], length: usize) -> String {
    match sections.last() {
        Some(s) if s.end() > length => format!(
            "The count of the {} at byte {} says {}: {} bytes from byte {} on, but only {} are left.",
            NAMES[sections.len() - 1],
            s.count_at,
            s.count,
            s.end() - s.place(0),
            s.place(0),
            length - s.place(0),
        ),
        last => {
            let (next, at) = (NAMES[sections.len() % 4], last.map_or(4, |s| s.end()));
            format!("The count of the {next} should be at byte {at}, but the file has {length} bytes.")
        }
    }
}

// The limits of paper 01 for an enabled rule, with the ends of its quantity's range.
fn limits_text(rule: usize, cells: u8) -> String {
    let (low, high) = match rule {
        0 | 1 | 10 | 15 => (0, 65_535),
        2 | 3 => (0, 65_535 * cells as i32),
        _ => (-32_768, 32_767),
    };
    let order = match rule {
        1 | 3 | 5 | 9 => format!("{low} < threshold <= recovery < {high}"),
        0..=9 => format!("{low} < recovery <= threshold < {high}"),
        12 => format!("{low} < threshold <= {high}, recovery 0"),
        _ => format!("{low} <= threshold < {high}, recovery 0"),
    };
    format!("Its limits: {order}, time 1 to 255.")
}

fn rule_place(rules: &Section, trace: &[u8], rule: usize) -> Option<String> {
    let (threshold, recovery, time) = rule_of(rules.records(trace).nth(rule)?);
    Some(format!(
        "{} is rule {rule} at byte {}: threshold {threshold}, recovery {recovery}, time {time}, in {}.\n{}",
        title(rule),
        rules.place(rule),
        RULES[rule].unit,
        limits_text(rule, trace[1]),
    ))
}

fn hole_text(holes: &Section, trace: &[u8], index: usize) -> Option<String> {
    let (first, last) = hole_of(holes.records(trace).nth(index)?);
    Some(format!("hole {index} at byte {}, ticks {first} to {last}", holes.place(index)))
}

fn sample_text(samples: &Section, trace: &[u8], index: usize) -> Option<String> {
    let tick = sample_of(samples.records(trace).nth(index)?).tick;
    Some(format!("sample {index} at byte {}, tick {tick}", samples.place(index)))
}

fn reply_text(replies: &Section, trace: &[u8], index: usize) -> Option<String> {
    let tick = reply_of(replies.records(trace).nth(index)?).0;
    Some(format!("reply {index} at byte {}, tick {tick}", replies.place(index)))
}

// A record and, if there is one, the one before it.
fn with_previous(text: impl Fn(usize) -> Option<String>, index: usize) -> Option<String> {
    let own = text(index)?;
    let before = index.checked_sub(1).and_then(text);
    Some(format!("It is {own}; {}.", before.map_or("it is the first".to_string(), |b| format!("before it is {b}"))))
}

// What comes next at the expected tick. Below it each tick was covered once: by a hole that begins below, or by a sample.
fn coverage_place(sections: &[Section], trace: &[u8], tick: u32) -> String {
    let taken: Vec<(u32, u32)> = sections[1].records(trace).map(hole_of).take_while(|h| h.0 < tick).collect();
    let unseen: u64 = taken.iter().map(|h| h.1 as u64 + 1 - h.0 as u64).sum();
    let hole = hole_text(&sections[1], trace, taken.len());
    let sample = sample_text(&sections[3], trace, (tick as u64).saturating_sub(unseen) as usize);
    format!(
        "The first tick that is not covered once is {}.\nNext hole: {}.\nNext sample: {}.",
        tick_text(tick),
        hole.unwrap_or("none left".to_string()),
        sample.unwrap_or("none left".to_string()),
    )
}

fn last_tick_text(sections: &[Section], trace: &[u8]) -> String {
    let hole = sections[1].records(trace).last().map(|h| hole_of(h).1);
    let sample = sections[3].records(trace).last().map(|s| sample_of(s).tick);
    hole.max(sample).map_or("No tick is covered.".to_string(), |tick| format!("The last tick is {tick}."))
}

// Where to look. None if the trace has no such place.
fn place_text(sections: &[Section], trace: &[u8], number: u8, place: u32) -> Option<String> {
    let index = place as usize;
    if matches!(number, 7..=11) && !whole(sections, trace) || matches!(number, 2..=4) && trace.len() < 4 {
        return None;
    }
    Some(match number {
        1 | 14 => format!("The file has {} bytes.", trace.len()),
        2 => format!("The version is byte 0: {}.", trace[0]),
        3 => format!("The number of cells is byte 1: {}.", trace[1]),
        4 => format!("The idle current is at byte 2: {} mA.", idle_of(trace)),
        5 => past_the_end(sections, trace.len()),
        6 => format!("The number of rules is at byte 4: {}.", sections.first()?.count),
        7 => rule_place(&sections[0], trace, index)?,
        8 => with_previous(|i| hole_text(&sections[1], trace, i), index)?,
        9 => coverage_place(sections, trace, place),
        10 => {
            let reply = with_previous(|i| reply_text(&sections[2], trace, i), index)?;
            format!("{reply} {}", last_tick_text(sections, trace))
        }
        11 => {
            let end = sections[3].end();
            format!("The last section ends with byte {}; {} bytes follow it.", end - 1, trace.len() - end)
        }
        _ => return None,
    })
}

// Where what is refused begins. For 5 that is the count that is too large or missing.
fn byte_of(sections: &[Section], trace: &[u8], number: u8, place: u32) -> Option<usize> {
    let index = place as usize;
    match number {
        2 => Some(0),
        3 => Some(1),
        4 => Some(2),
        5 => Some(sections.last().map_or(4, |s| if s.end() > trace.len() { s.count_at } else { s.end() })),
        6 => Some(4),
        7 => Some(sections[0].place(index)),
        8 => Some(sections[1].place(index)),
        10 => Some(sections[2].place(index)),
        11 => Some(sections[3].end()),
        _ => None,
    }
}

pub fn read(trace: &[u8], number: u8, place: u32) -> Refused {
    let sections = sections(trace);
    let look = place_text(&sections, trace, number, place);
    let byte = look.as_ref().and_then(|_| byte_of(&sections, trace, number, place));
    let look = look.unwrap_or("The trace has no such place.".to_string());
    Refused { number, place, meaning: meaning(number as u32), look, byte, to_do: to_do(number) }
}

pub fn text(refused: &Refused) -> String {
    let Refused { number, place, meaning, look, to_do, .. } = refused;
    format!("Refused, number {number} at {place}: {meaning}.\n{look}\nWhat to do: {to_do}.\n")
}
