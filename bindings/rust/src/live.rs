use crate::calls;
use crate::refusal::Refused;
use crate::report::{LiveReport, REPORT_BYTES};
use crate::rules::RULES_BYTES;

/// The length of [`LiveFeed::words`].
pub const WORDS: usize = 80;

/// The length of [`LiveFeed::totals`].
pub const TOTALS: usize = 4;

/// Judges samples and holes one by one as an analyzer runs.
///
/// ```
/// use buttmitrel::{rule_bytes, Flag, LiveFeed, Rule};
///
/// // Cell over voltage above 4,200 mV for three seconds, recovered below 4,100 mV; the other rules are off.
/// let mut rules = [Rule::OFF; 16];
/// rules[0] = Rule { threshold: 4_200, recovery: 4_100, time: 3 };
/// let mut feed = LiveFeed::begin(3, 100, &rule_bytes(&rules))?;
/// feed.sample(0, 1_500, 300, &[4_250, 4_140, 4_130], &[250, 250, 250])?;
/// assert_eq!(feed.report().rules[0].alert, Flag::Held);
/// assert_eq!(feed.report().rules[0].status, Flag::Clear);
///
/// // Ticks 1 to 4 are not seen.
/// feed.hole(4)?;
/// assert_eq!(feed.report().rules[0].status, Flag::Unknown);
/// assert!(feed.possible_states(0).eq([0, 1, 2, 3]));
///
/// // The expected tick is 5.
/// let refused = feed.sample(4, 0, 300, &[4_000; 3], &[250; 3]).unwrap_err();
/// assert_eq!((refused.number, refused.place), (9, 5));
/// # Ok::<(), buttmitrel::Refused>(())
/// ```
#[derive(Clone, Debug, PartialEq, Eq, Hash)]
pub struct LiveFeed {
    pub(crate) cells: u8,
    pub(crate) idle: u16,
    pub(crate) rules: [u8; RULES_BYTES],
    pub(crate) words: [u64; WORDS],
    pub(crate) totals: [u64; TOTALS],
}

impl LiveFeed {
    /// Begins a feed with the number of cells, the idle current in mA and the 160 bytes of a rule section, which
    /// [`rule_bytes`](crate::rule_bytes) makes. Refusals 3, 4, 6 and 7.
    pub fn begin(cells: u8, idle: u16, rules: &[u8]) -> Result<LiveFeed, Refused> {
        let (mut words, mut totals) = ([0; WORDS], [0; TOTALS]);
        calls::live_begin(cells, idle, rules, &mut words, &mut totals)?;
        Ok(LiveFeed { cells, idle, rules: whole(rules), words, totals })
    }

    /// Takes up a feed whose [`words`](LiveFeed::words) and [`totals`](LiveFeed::totals) were kept, with the cells, the idle current
    /// and the rules of its beginning. What is no state of a feed is refusal 16.
    ///
    /// ```
    /// # use buttmitrel::LiveFeed;
    /// let mut feed = LiveFeed::begin(3, 100, &[0; 160])?;
    /// feed.hole(9)?;
    /// let again = LiveFeed::resume(3, 100, &[0; 160], feed.words(), feed.totals())?;
    /// assert_eq!(again, feed);
    /// assert_eq!(LiveFeed::resume(3, 100, &[0; 160], &[0; 80], feed.totals()).unwrap_err().number, 16);
    /// # Ok::<(), buttmitrel::Refused>(())
    /// ```
    pub fn resume(cells: u8, idle: u16, rules: &[u8], words: &[u64], totals: &[u64]) -> Result<LiveFeed, Refused> {
        calls::live_report(cells, idle, rules, words, totals, &mut [0; REPORT_BYTES])?;
        Ok(LiveFeed { cells, idle, rules: whole(rules), words: whole(words), totals: whole(totals) })
    }

    /// Takes the sample of the expected tick: current in mA, board temperature in 0.1 °C, and of each cell the voltage in mV and the
    /// temperature in 0.1 °C. Refusals 15 and 9.
    pub fn sample(&mut self, tick: u32, current: i16, board: i16, volts: &[u16], temps: &[i16]) -> Result<(), Refused> {
        calls::live_sample(self, tick, current, board, volts, temps)
    }

    /// Takes a hole from the expected tick up to its last tick. Refusal 8.
    pub fn hole(&mut self, last: u32) -> Result<(), Refused> {
        calls::live_hole(self, last)
    }

    /// The flags, outputs and totals of what was fed so far.
    pub fn report(&self) -> LiveReport {
        let mut bytes = [0; REPORT_BYTES];
        let reported = calls::live_report(self.cells, self.idle, &self.rules, &self.words, &self.totals, &mut bytes);
        reported.expect("what a feed keeps is a state");
        LiveReport::of(&bytes)
    }

    /// The tick that the next sample has to bear, and at which the next hole begins.
    pub fn expected_tick(&self) -> u32 {
        self.totals[3] as u32
    }

    /// The states of a rule that are possible, from 0 up to the rule's time; none for a rule above 15.
    pub fn possible_states(&self, rule: usize) -> impl Iterator<Item = u8> + '_ {
        let words = self.words.chunks_exact(5).nth(rule).unwrap_or(&[0; 5]);
        (0..=u8::MAX).filter(move |&s| words[s as usize / 64] >> (s % 64) & 1 == 1)
    }

    /// The possible states as words of bits: state s of rule i is possible if bit s % 64 of word 5 * i + s / 64 is 1.
    pub fn words(&self) -> &[u64; WORDS] {
        &self.words
    }

    /// Charge in and charge out in mA seconds, unseen ticks, ticks. The last is the expected tick.
    pub fn totals(&self) -> &[u64; TOTALS] {
        &self.totals
    }
}

// A list that the library has taken, which has its whole length.
pub(crate) fn whole<T: Copy, const N: usize>(list: &[T]) -> [T; N] {
    list.try_into().expect("a list of another length is refused")
}
