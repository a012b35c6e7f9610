//! Three-way outputs, the report's bytes and the program's output.

use crate::bytes::hex;
use crate::read::Refusal;
use crate::rules::{Row, ROWS};

#[derive(Clone, Copy, Debug, PartialEq)]
pub enum Flag {
    Clear = 0,
    Held = 1,
    Unknown = 2,
}

pub const NO_TICK: u32 = 0xFFFF_FFFF;

#[derive(Clone, Copy, Debug, PartialEq)]
pub struct RuleReport {
    pub alert: Flag,
    pub status: Flag,
    pub first_possible: u32,
    pub first_held: u32,
}

#[derive(Clone, Copy, Debug, Default, PartialEq)]
pub struct Totals {
    pub charge_in: u64,
    pub charge_out: u64,
    pub unseen: u32,
    pub ticks: u32,
}

#[derive(Clone, Debug, PartialEq)]
pub struct Judged {
    pub rules: Vec<RuleReport>,
    /// C, D and fuse.
    pub outputs: [Flag; 3],
    pub totals: Totals,
    pub verdicts: Vec<u8>,
}

/// The output that the rows chosen by `drives` drive together.
pub fn output(statuses: &[Flag; 16], drives: impl Fn(&Row) -> bool) -> Flag {
    let mut all = Flag::Clear;
    for (row, status) in ROWS.iter().zip(statuses) {
        if drives(row) && *status == Flag::Held {
            return Flag::Held;
        }
        if drives(row) && *status == Flag::Unknown {
            all = Flag::Unknown;
        }
    }
    all
}

/// C open, D open and fuse.
pub fn outputs(statuses: &[Flag; 16]) -> [Flag; 3] {
    [
        output(statuses, |row| row.opens_charge),
        output(statuses, |row| row.opens_discharge),
        output(statuses, |row| row.latches),
    ]
}

impl Judged {
    pub fn report(&self) -> Vec<u8> {
        let mut out = Vec::with_capacity(187);
        for rule in &self.rules {
            out.push(rule.alert as u8);
            out.push(rule.status as u8);
            out.extend_from_slice(&rule.first_possible.to_le_bytes());
            out.extend_from_slice(&rule.first_held.to_le_bytes());
        }
        out.extend(self.outputs.iter().map(|flag| *flag as u8));
        out.extend_from_slice(&self.totals.charge_in.to_le_bytes());
        out.extend_from_slice(&self.totals.charge_out.to_le_bytes());
        out.extend_from_slice(&self.totals.unseen.to_le_bytes());
        out.extend_from_slice(&self.totals.ticks.to_le_bytes());
        out
    }
}

/// What the program writes.
pub fn program_output(judged: &Result<Judged, Refusal>) -> String {
    match judged {
        Err(refusal) => format!("refused {} at {}\n", refusal.number, refusal.place),
        Ok(judged) => {
            let verdicts: String = judged.verdicts.iter().map(|v| v.to_string()).collect();
            format!("accepted\n{}\n{}\n", hex(&judged.report()), verdicts)
        }
    }
}
