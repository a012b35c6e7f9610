// The report and the verdicts of an accepted trace in words.
use crate::facts::{Accepted, Flag, Reply, Rule};
use crate::names::{reply_text, RULES};
use crate::rules::{at_even_ticks, latches, title};

// The word for a flag, of those for clear, held and unknown.
fn flag_text(flag: Flag, words: [&'static str; 3]) -> &'static str {
    words[flag as usize]
}

pub fn flag_word(flag: Flag) -> &'static str {
    flag_text(flag, ["clear", "held", "unknown"])
}

// A tick is a second.
fn clock(ticks: u32) -> String {
    format!("{}:{:02}:{:02}", ticks / 3600, ticks / 60 % 60, ticks % 60)
}

pub fn tick_text(tick: u32) -> String {
    format!("tick {tick} ({})", clock(tick))
}

fn first_ticks(rule: &Rule) -> String {
    if (rule.first_possible, rule.first_held) == (None, None) {
        return "status clear at every tick".to_string();
    }
    let first = |word, tick| match tick {
        None => format!("{word} at no tick"),
        Some(tick) => format!("first {word} at {}", tick_text(tick)),
    };
    format!("status {}, {}", first("possible", rule.first_possible), first("certain", rule.first_held))
}

fn level(value: i32, unit: &str) -> String {
    if unit != "0.1 °C" {
        return format!("{value} {unit}");
    }
    let sign = if value < 0 { "-" } else { "" };
    format!("{sign}{}.{} °C", value.unsigned_abs() / 10, value.unsigned_abs() % 10)
}

fn setting_text(rule: &Rule) -> String {
    let (number, unit, time) = (rule.number, RULES[rule.number].unit, rule.time);
    let recovery = if latches(number) { "latches".to_string() } else { format!("recovery {}", level(rule.recovery, unit)) };
    let evaluated = if at_even_ticks(number) { ", evaluated at even ticks" } else { "" };
    format!("rule {number}: threshold {}, {recovery}, time {time}{evaluated}", level(rule.threshold, unit))
}

fn rule_text(rule: &Rule) -> String {
    format!(
        "  {}: alert {}, status {}\n    {}\n    {}\n",
        title(rule.number),
        flag_word(rule.alert),
        flag_word(rule.status),
        first_ticks(rule),
        setting_text(rule),
    )
}

// A rule is left to the list of those that are off if the report, too, says clear throughout.
fn is_off(rule: &Rule) -> bool {
    rule.time == 0 && (rule.alert, rule.status, rule.first_possible, rule.first_held) == (Flag::Clear, Flag::Clear, None, None)
}

fn rules_text(rules: &[Rule]) -> String {
    let (off, on): (Vec<&Rule>, Vec<&Rule>) = rules.iter().partition(|rule| is_off(rule));
    let mut text = "Rules at the end of the capture:\n".to_string();
    text.extend(on.into_iter().map(rule_text));
    let names: Vec<&str> = off.iter().map(|rule| RULES[rule.number].short).collect();
    match off.len() {
        0 => {}
        16 => text += "  all off\n",
        _ => text += &format!("  off: {}\n", names.join(", ")),
    }
    text
}

fn outputs_text(facts: &Accepted) -> String {
    let mosfet = ["no rule opens it", "open", "unknown whether open"];
    let fuse = ["not commanded", "commanded", "unknown whether commanded"];
    format!(
        "Outputs at the end of the capture:\n  charge MOSFET (C): {}\n  discharge MOSFET (D): {}\n  fuse: {}\n",
        flag_text(facts.charge_mosfet, mosfet),
        flag_text(facts.discharge_mosfet, mosfet),
        flag_text(facts.fuse, fuse),
    )
}

// A charge in mA seconds, and in mAh to three places.
fn charge(mas: i128) -> String {
    let sign = if mas < 0 { "-" } else { "" };
    let thousandths = (mas.abs() * 1000 + 1800) / 3600;
    format!("{mas} mAs ({sign}{}.{:03} mAh)", thousandths / 1000, thousandths % 1000)
}

fn charge_text(facts: &Accepted) -> String {
    let (least, greatest) = facts.net_charge();
    let net = if least == greatest { charge(least) } else { format!("from {} to {}", charge(least), charge(greatest)) };
    format!(
        "Charge:\n  in: {}\n  out: {}\n  unseen: {} s ({})\n  net: {net}\n",
        charge(facts.charge_in.into()),
        charge(facts.charge_out.into()),
        facts.unseen,
        clock(facts.unseen),
    )
}

fn replies_text(replies: &[Reply]) -> String {
    if replies.is_empty() {
        return "Replies: none\n".to_string();
    }
    let mut text = "Replies:\n".to_string();
    for reply in replies {
        text += &format!("  {}: {}: {}\n", tick_text(reply.tick), reply_text(&reply.bus), reply.meaning());
    }
    text
}

pub fn text(facts: &Accepted) -> String {
    let parts = [
        format!("Accepted: {} ticks ({}), {} of them unseen.\n", facts.ticks, clock(facts.ticks), facts.unseen),
        rules_text(&facts.rules),
        outputs_text(facts),
        charge_text(facts),
        replies_text(&facts.replies),
    ];
    parts.join("\n")
}
