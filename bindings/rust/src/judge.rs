use crate::calls;
use crate::refusal::Refused;
use crate::report::{Report, REPORT_BYTES};

/// What is said of a reply of the pack.
#[derive(Clone, Copy, Debug, PartialEq, Eq, Hash)]
pub enum Verdict {
    /// An address byte is wrong.
    WrongAddress = 1,
    /// The packet error code is wrong.
    WrongPec = 2,
    /// The command is none of Voltage, Current and BatteryStatus.
    OtherCommand = 3,
    /// The word agrees with the samples.
    Agrees = 4,
    /// The word differs from the samples.
    Differs = 5,
    /// It depends on how the holes are filled.
    CannotTell = 6,
}

impl Verdict {
    pub(crate) fn of(byte: u8) -> Verdict {
        match byte {
            1 => Verdict::WrongAddress,
            2 => Verdict::WrongPec,
            3 => Verdict::OtherCommand,
            4 => Verdict::Agrees,
            5 => Verdict::Differs,
            6 => Verdict::CannotTell,
            _ => unreachable!("the library wrote the verdict {byte}"),
        }
    }
}

/// The bounds of a trace's net charge over all fillings of its holes, in mA seconds.
#[derive(Clone, Copy, Debug, PartialEq, Eq, Hash)]
pub struct NetCharge {
    /// With every unseen current at its least.
    pub least_net_charge_mas: i64,
    /// With every unseen current at its greatest.
    pub greatest_net_charge_mas: i64,
}

/// Judges a trace.
///
/// ```
/// # let path = concat!(env!("CARGO_MANIFEST_DIR"), "/../../examples/hidden_over_voltage.trace");
/// let trace = std::fs::read(path)?;
/// let report = buttmitrel::judge(&trace)?;
/// assert_eq!(report.rules[0].status, buttmitrel::Flag::Unknown);
/// assert_eq!(report.rules[0].first_possible_tick, Some(12));
/// assert_eq!(report.rules[0].first_held_tick, None);
/// assert_eq!(report.totals.charge_in_mas, 18_000);
/// assert_eq!(report.verdicts[0], buttmitrel::Verdict::Agrees);
/// # Ok::<(), Box<dyn std::error::Error>>(())
/// ```
pub fn judge(trace: &[u8]) -> Result<Report, Refused> {
    let mut report = [0; REPORT_BYTES];
    let mut verdicts = vec![0; reply_count(trace)? as usize];
    judge_into(trace, &mut report, &mut verdicts)?;
    Ok(Report::of(&report, &verdicts))
}

/// Judges a trace into the caller's bytes: the report as `docs/FORMAT.md` has it, and a verdict of 1 to 6 for each reply. Nothing is
/// allocated. A report that is not 187 bytes is refusal 12, verdicts that are not as many as the replies are 13.
pub fn judge_into(trace: &[u8], report: &mut [u8], verdicts: &mut [u8]) -> Result<(), Refused> {
    calls::judge(trace, report, verdicts)
}

/// How many replies a trace has. It refuses what is wrong with the trace's sections (1 to 6 and 11), and looks no further.
pub fn reply_count(trace: &[u8]) -> Result<u32, Refused> {
    calls::reply_count(trace)
}

/// The bounds of a trace's net charge.
///
/// ```
/// # let path = concat!(env!("CARGO_MANIFEST_DIR"), "/../../examples/hidden_over_voltage.trace");
/// let net = buttmitrel::net_charge(&std::fs::read(path)?)?;
/// assert_eq!((net.least_net_charge_mas, net.greatest_net_charge_mas), (-80_304, 116_301));
/// # Ok::<(), Box<dyn std::error::Error>>(())
/// ```
pub fn net_charge(trace: &[u8]) -> Result<NetCharge, Refused> {
    let mut bounds = [0; 2];
    calls::net_charge(trace, &mut bounds)?;
    Ok(NetCharge { least_net_charge_mas: bounds[0], greatest_net_charge_mas: bounds[1] })
}
