// What is the same of a rule in every trace: how it is evaluated and what it drives (paper 01, 'The sixteen rules').
use crate::names::RULES;

pub const CHARGE_MOSFET: &str = "charge_mosfet_open";
pub const DISCHARGE_MOSFET: &str = "discharge_mosfet_open";
pub const FUSE: &str = "fuse_commanded";

// The outputs that a rule drives, and the alarms of BatteryStatus that it sets.
type Drives = (&'static [&'static str], &'static [&'static str]);

const CHARGE: &[&str] = &[CHARGE_MOSFET];
const DISCHARGE: &[&str] = &[DISCHARGE_MOSFET];
const BOTH: &[&str] = &[CHARGE_MOSFET, DISCHARGE_MOSFET];
const ALL: &[&str] = &[CHARGE_MOSFET, DISCHARGE_MOSFET, FUSE];

pub const DRIVES: [Drives; 16] = [
    (CHARGE, &["TCA"]),
    (DISCHARGE, &["TDA"]),
    (CHARGE, &["TCA"]),
    (DISCHARGE, &["TDA"]),
    (CHARGE, &["TCA"]),
    (DISCHARGE, &["TDA"]),
    (CHARGE, &["TCA", "OTA"]),
    (DISCHARGE, &["OTA", "TDA"]),
    (BOTH, &["TCA", "OTA", "TDA"]),
    (DISCHARGE, &["TDA"]),
    (ALL, &["TCA", "TDA"]),
    (ALL, &["TCA", "TDA"]),
    (ALL, &["TCA", "TDA"]),
    (ALL, &["TCA", "OTA", "TDA"]),
    (ALL, &["TCA", "OTA", "TDA"]),
    (ALL, &["TCA", "TDA"]),
];

// The short name and the manual's.
pub fn title(rule: usize) -> String {
    let name = &RULES[rule];
    if name.short == name.long { name.short.to_string() } else { format!("{} ({})", name.short, name.long) }
}

pub fn latches(rule: usize) -> bool {
    rule >= 10
}

// The temperature rules are evaluated at even ticks, the others at every tick.
pub fn at_even_ticks(rule: usize) -> bool {
    RULES[rule].unit == "0.1 °C"
}
