// The facts of an answer as one line of JSON in ASCII (docs/JSON.md).
use crate::accepted::flag_word;
use crate::facts::{Accepted, Reply, Rule};
use crate::names::{alarms, BATTERY_STATUS, COMMANDS, CURRENT, RULES, VOLTAGE};
use crate::refused::Refused;
use crate::rules::{at_even_ticks, latches, CHARGE_MOSFET, DISCHARGE_MOSFET, DRIVES, FUSE};
use crate::trace_bytes::Sample;

const FORMAT: u8 = 1;
const VERDICTS: [&str; 6] = ["wrong_address", "wrong_pec", "other_command", "agrees", "differs", "cannot_tell"];

fn string(text: &str) -> String {
    let mut out = String::from("\"");
    for unit in text.encode_utf16() {
        match char::from_u32(unit.into()) {
            Some(c @ ('"' | '\\')) => out.extend(['\\', c]),
            Some(c @ ' '..='~') => out.push(c),
            _ => out += &format!("\\u{unit:04x}"),
        }
    }
    out + "\""
}

fn list(items: impl IntoIterator<Item = String>) -> String {
    format!("[{}]", items.into_iter().collect::<Vec<_>>().join(","))
}

fn strings(items: &[&str]) -> String {
    list(items.iter().map(|item| string(item)))
}

fn numbers<T: ToString>(items: &[T]) -> String {
    list(items.iter().map(T::to_string))
}

// The value of each name is JSON already.
fn object(fields: &[(&str, String)]) -> String {
    let fields: Vec<String> = fields.iter().map(|(name, value)| format!("{}:{value}", string(name))).collect();
    format!("{{{}}}", fields.join(","))
}

fn or_null<T: ToString>(value: Option<T>) -> String {
    value.map_or("null".to_string(), |v| v.to_string())
}

fn rule(rule: &Rule) -> String {
    let (name, (outputs, sets)) = (&RULES[rule.number], DRIVES[rule.number]);
    object(&[
        ("number", rule.number.to_string()),
        ("short_name", string(name.short)),
        ("name", string(name.long)),
        ("on", (rule.time != 0).to_string()),
        ("unit", string(name.unit)),
        ("threshold", rule.threshold.to_string()),
        ("recovery", rule.recovery.to_string()),
        ("time", rule.time.to_string()),
        ("latches", latches(rule.number).to_string()),
        ("at_even_ticks", at_even_ticks(rule.number).to_string()),
        ("drives", strings(outputs)),
        ("alarms", strings(sets)),
        ("alert", string(flag_word(rule.alert))),
        ("status", string(flag_word(rule.status))),
        ("first_possible_tick", or_null(rule.first_possible)),
        ("first_held_tick", or_null(rule.first_held)),
    ])
}

fn sample(sample: &Sample) -> String {
    object(&[("current_ma", sample.current.to_string()), ("cells_mv", numbers(&sample.volts))])
}

fn reply(reply: &Reply) -> String {
    let (command, word) = (reply.command(), u16::from_le_bytes([reply.bus[3], reply.bus[4]]));
    let read_as = |name| command == name;
    object(&[
        ("tick", reply.tick.to_string()),
        ("bus_bytes", numbers(&reply.bus)),
        ("command", command.to_string()),
        ("command_name", or_null(COMMANDS.get(command as usize).map(|name| string(name)))),
        ("word", word.to_string()),
        ("voltage_mv", or_null(read_as(VOLTAGE).then_some(word))),
        ("current_ma", or_null(read_as(CURRENT).then_some(word as i16))),
        ("alarms", or_null(read_as(BATTERY_STATUS).then(|| strings(&alarms(word))))),
        ("verdict", reply.verdict.to_string()),
        ("verdict_name", string(VERDICTS[reply.verdict as usize - 1])),
        ("meaning", string(&reply.meaning())),
        ("sample", or_null(reply.sample.as_ref().map(sample))),
    ])
}

pub fn accepted(facts: &Accepted) -> String {
    let (least, greatest) = facts.net_charge();
    let outputs = object(&[
        (CHARGE_MOSFET, string(flag_word(facts.charge_mosfet))),
        (DISCHARGE_MOSFET, string(flag_word(facts.discharge_mosfet))),
        (FUSE, string(flag_word(facts.fuse))),
    ]);
    let line = object(&[
        ("format", FORMAT.to_string()),
        ("answer", string("accepted")),
        ("cells", facts.cells.to_string()),
        ("idle_ma", facts.idle.to_string()),
        ("ticks", facts.ticks.to_string()),
        ("unseen_ticks", facts.unseen.to_string()),
        ("charge_in_mas", facts.charge_in.to_string()),
        ("charge_out_mas", facts.charge_out.to_string()),
        ("least_net_charge_mas", least.to_string()),
        ("greatest_net_charge_mas", greatest.to_string()),
        ("outputs", outputs),
        ("rules", list(facts.rules.iter().map(rule))),
        ("replies", list(facts.replies.iter().map(reply))),
    ]);
    line + "\n"
}

// What the place of a refusal counts; the others have place 0.
fn place_is(number: u8) -> Option<&'static str> {
    match number {
        7 => Some("rule"),
        8 => Some("hole"),
        9 => Some("tick"),
        10 => Some("reply"),
        _ => None,
    }
}

pub fn refused(facts: &Refused) -> String {
    let line = object(&[
        ("format", FORMAT.to_string()),
        ("answer", string("refused")),
        ("number", facts.number.to_string()),
        ("place", facts.place.to_string()),
        ("place_is", or_null(place_is(facts.number).map(string))),
        ("byte", or_null(facts.byte)),
        ("meaning", string(facts.meaning)),
        ("where_to_look", list(facts.look.lines().map(string))),
        ("what_to_do", string(facts.to_do)),
    ]);
    line + "\n"
}
