//! Safe functions over the judge of a battery bus analyzer (`include/buttmitrel.h`).
//!
//! A capture of a battery pack's bus has holes: seconds in which nothing was seen. [`judge()`] says of each protection rule whether it
//! was held, clear or unknown. [`LiveFeed`] says the same while the analyzer runs. [`Recorder`] makes a trace of the samples that a
//! capture card has room for, with a hole for every other second. [`cells()`] answers highest, lowest and sum of cell voltages.
//! `docs/FORMAT.md` of the repository has the trace and the report byte by byte, the rules and every refusal.
//!
//! ```
//! // Three cells, idle current 0, all sixteen rules off, no hole, no reply, no sample.
//! let mut trace = vec![0; 172];
//! trace[..6].copy_from_slice(&[1, 3, 0, 0, 16, 0]);
//! let report = buttmitrel::judge(&trace)?;
//! assert_eq!(report.rules[0].status, buttmitrel::Flag::Clear);
//! assert_eq!(report.totals.ticks, 0);
//!
//! trace[1] = 13;
//! let refused = buttmitrel::judge(&trace).unwrap_err();
//! assert_eq!((refused.number, refused.place), (3, 0));
//! assert_eq!(refused.to_string(), "refused 3 at 0: the number of cells is not 3 to 12");
//! # Ok::<(), buttmitrel::Refused>(())
//! ```
//!
//! Any bytes and any numbers get an answer, and a call that refuses changes nothing. Nothing is kept between calls, and several
//! threads can call at once.
#![deny(unsafe_code, missing_docs)]

#[allow(unsafe_code)]
#[rustfmt::skip]
mod calls;
mod cells;
mod judge;
mod live;
mod meaning;
mod pec;
mod recorder;
mod refusal;
mod report;
mod rules;

pub use cells::{cells, Cells};
pub use judge::{judge, judge_into, net_charge, reply_count, NetCharge, Verdict};
pub use live::{LiveFeed, TOTALS, WORDS};
pub use pec::{check, seal, Check};
pub use recorder::{NoTrace, Offered, Recorder, HOLES_BYTES, RECORD};
pub use refusal::Refused;
pub use report::{Flag, LiveReport, LiveRule, Outputs, Report, RuleReport, Totals, REPORT_BYTES};
pub use rules::{rule_bytes, Rule, RULES_BYTES, RULE_SHORT_NAMES};

// The example of README.md is compiled with those of the documentation.
#[cfg(doctest)]
#[doc = include_str!("../README.md")]
struct Readme;
