/// The length of a rule section in bytes.
pub const RULES_BYTES: usize = 160;

/// The names of the sixteen rules, rule 0 first.
pub const RULE_SHORT_NAMES: [&str; 16] = [
    "COV",
    "CUV",
    "POV",
    "PUV",
    "OC Charge",
    "OC Discharge",
    "OT Charge",
    "OT Discharge",
    "Board Over Temperature",
    "Discharge Under Temperature",
    "SOV",
    "SOC Charge",
    "SOC Discharge",
    "SOT Charge",
    "SOT Discharge",
    "Cell Imbalance",
];

/// The settings of a rule, in mV, mA or 0.1 °C as its quantity is.
#[derive(Clone, Copy, Debug, PartialEq, Eq, Hash)]
pub struct Rule {
    /// Beyond it the rule counts.
    pub threshold: i32,
    /// Beyond it a rule of 0 to 9 recovers; 0 for rules 10 to 15, which latch.
    pub recovery: i32,
    /// How many evaluations in a row make the rule active: 1 to 255, or 0 for a rule that is off.
    pub time: u16,
}

impl Rule {
    /// A rule that is off.
    pub const OFF: Rule = Rule { threshold: 0, recovery: 0, time: 0 };
}

/// The sixteen rules as the 160 bytes of a trace's rule section.
///
/// ```
/// use buttmitrel::{rule_bytes, Rule};
/// let mut rules = [Rule::OFF; 16];
/// rules[0] = Rule { threshold: 4_200, recovery: 4_100, time: 3 };
/// assert_eq!(rule_bytes(&rules)[..10], [0x68, 0x10, 0, 0, 0x04, 0x10, 0, 0, 3, 0]);
/// ```
pub fn rule_bytes(rules: &[Rule; 16]) -> [u8; RULES_BYTES] {
    let mut bytes = [0; RULES_BYTES];
    for (rule, record) in rules.iter().zip(bytes.chunks_exact_mut(10)) {
        record[..4].copy_from_slice(&rule.threshold.to_le_bytes());
        record[4..8].copy_from_slice(&rule.recovery.to_le_bytes());
        record[8..].copy_from_slice(&rule.time.to_le_bytes());
    }
    bytes
}
