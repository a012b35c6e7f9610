use crate::meaning::meaning;
use std::error::Error;
use std::fmt::{Display, Formatter, Result as Written};

/// Why a call refused: a number of `docs/FORMAT.md`, and where. What was lent to the call is as it was.
///
/// ```
/// let refused = buttmitrel::judge(b"no trace").unwrap_err();
/// assert_eq!((refused.number, refused.place), (2, 0));
/// assert_eq!(refused.meaning(), "the version is not 1");
/// ```
#[derive(Clone, Copy, Debug, PartialEq, Eq, Hash)]
pub struct Refused {
    /// 1 to 17.
    pub number: u32,
    /// For 7 the rule, for 8 the hole's index (live: the expected tick), for 9 the expected tick (recorder: the next tick), for 10 the
    /// reply's index, else 0.
    pub place: u32,
}

impl Refused {
    /// What the number means, in words.
    pub fn meaning(&self) -> &'static str {
        meaning(self.number)
    }
}

impl Display for Refused {
    fn fmt(&self, f: &mut Formatter<'_>) -> Written {
        write!(f, "refused {} at {}: {}", self.number, self.place, self.meaning())
    }
}

impl Error for Refused {}

// A call's answer: below 2^32 its value, else a refusal.
pub(crate) fn value(answer: u64) -> Result<u32, Refused> {
    match (answer >> 32) as u32 {
        0 => Ok(answer as u32),
        number => Err(Refused { number, place: answer as u32 }),
    }
}
