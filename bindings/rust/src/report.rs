use crate::judge::Verdict;
use std::array::from_fn;
use std::fmt::{Display, Formatter, Result as Written};

/// The length of a report in bytes.
pub const REPORT_BYTES: usize = 187;

/// What is known of an alert, a status or an output over all fillings of the holes.
#[derive(Clone, Copy, Debug, PartialEq, Eq, Hash)]
pub enum Flag {
    /// Active under no filling.
    Clear = 0,
    /// Active under every filling.
    Held = 1,
    /// Active under some fillings and not under others.
    Unknown = 2,
}

impl Flag {
    fn of(byte: u8) -> Flag {
        match byte {
            0 => Flag::Clear,
            1 => Flag::Held,
            2 => Flag::Unknown,
            _ => unreachable!("the library wrote the flag {byte}"),
        }
    }
}

impl Display for Flag {
    fn fmt(&self, f: &mut Formatter<'_>) -> Written {
        f.write_str(match self {
            Flag::Clear => "clear",
            Flag::Held => "held",
            Flag::Unknown => "unknown",
        })
    }
}

/// The flags of a rule.
#[derive(Clone, Copy, Debug, PartialEq, Eq, Hash)]
pub struct LiveRule {
    /// The threshold was met at the last evaluation, or the status is active.
    pub alert: Flag,
    /// The rule is active: it opens its MOSFETs and sets its bits.
    pub status: Flag,
}

/// What a trace's report says of a rule.
#[derive(Clone, Copy, Debug, PartialEq, Eq, Hash)]
pub struct RuleReport {
    /// The alert at the end.
    pub alert: Flag,
    /// The status at the end.
    pub status: Flag,
    /// The first tick at which the status was held or unknown.
    pub first_possible_tick: Option<u32>,
    /// The first tick at which the status was held.
    pub first_held_tick: Option<u32>,
}

/// What the rules together drive.
#[derive(Clone, Copy, Debug, PartialEq, Eq, Hash)]
pub struct Outputs {
    /// Whether the charge MOSFET (C) is open.
    pub charge_mosfet_open: Flag,
    /// Whether the discharge MOSFET (D) is open.
    pub discharge_mosfet_open: Flag,
    /// Whether the fuse is commanded to blow.
    pub fuse_commanded: Flag,
}

/// Sums over the records.
#[derive(Clone, Copy, Debug, PartialEq, Eq, Hash)]
pub struct Totals {
    /// The sum of the positive currents, in mA seconds.
    pub charge_in_mas: u64,
    /// The sum of the sizes of the negative currents, in mA seconds.
    pub charge_out_mas: u64,
    /// The ticks of the holes.
    pub unseen_ticks: u32,
    /// All ticks, seen and unseen.
    pub ticks: u32,
}

/// What [`judge()`](crate::judge()) says of an accepted trace.
#[derive(Clone, Debug, PartialEq, Eq, Hash)]
pub struct Report {
    /// The sixteen rules, in the order of [`RULE_SHORT_NAMES`](crate::RULE_SHORT_NAMES).
    pub rules: [RuleReport; 16],
    /// The outputs at the end.
    pub outputs: Outputs,
    /// The totals.
    pub totals: Totals,
    /// A verdict on each reply, in the trace's order.
    pub verdicts: Vec<Verdict>,
}

/// What a [`LiveFeed`](crate::LiveFeed) says of what it was fed so far.
#[derive(Clone, Copy, Debug, PartialEq, Eq, Hash)]
pub struct LiveReport {
    /// The sixteen rules, in the order of [`RULE_SHORT_NAMES`](crate::RULE_SHORT_NAMES).
    pub rules: [LiveRule; 16],
    /// The outputs.
    pub outputs: Outputs,
    /// The totals.
    pub totals: Totals,
}

type Bytes = [u8; REPORT_BYTES];

fn u32_at(bytes: &Bytes, at: usize) -> u32 {
    u32::from_le_bytes(from_fn(|i| bytes[at + i]))
}

fn u64_at(bytes: &Bytes, at: usize) -> u64 {
    u64::from_le_bytes(from_fn(|i| bytes[at + i]))
}

fn tick_at(bytes: &Bytes, at: usize) -> Option<u32> {
    Some(u32_at(bytes, at)).filter(|&tick| tick != u32::MAX)
}

fn flags_of(bytes: &Bytes, rule: usize) -> LiveRule {
    LiveRule { alert: Flag::of(bytes[10 * rule]), status: Flag::of(bytes[10 * rule + 1]) }
}

fn rule_of(bytes: &Bytes, rule: usize) -> RuleReport {
    let LiveRule { alert, status } = flags_of(bytes, rule);
    let (first_possible_tick, first_held_tick) = (tick_at(bytes, 10 * rule + 2), tick_at(bytes, 10 * rule + 6));
    RuleReport { alert, status, first_possible_tick, first_held_tick }
}

fn outputs_of(bytes: &Bytes) -> Outputs {
    Outputs { charge_mosfet_open: Flag::of(bytes[160]), discharge_mosfet_open: Flag::of(bytes[161]), fuse_commanded: Flag::of(bytes[162]) }
}

fn totals_of(bytes: &Bytes) -> Totals {
    Totals {
        charge_in_mas: u64_at(bytes, 163),
        charge_out_mas: u64_at(bytes, 171),
        unseen_ticks: u32_at(bytes, 179),
        ticks: u32_at(bytes, 183),
    }
}

impl Report {
    pub(crate) fn of(bytes: &Bytes, verdicts: &[u8]) -> Report {
        Report {
            rules: from_fn(|rule| rule_of(bytes, rule)),
            outputs: outputs_of(bytes),
            totals: totals_of(bytes),
            verdicts: verdicts.iter().map(|&byte| Verdict::of(byte)).collect(),
        }
    }
}

impl LiveReport {
    pub(crate) fn of(bytes: &Bytes) -> LiveReport {
        LiveReport { rules: from_fn(|rule| flags_of(bytes, rule)), outputs: outputs_of(bytes), totals: totals_of(bytes) }
    }
}
