use crate::calls;
use crate::live::whole;
use crate::refusal::Refused;
use crate::rules::RULES_BYTES;
use std::error::Error;
use std::fmt::{Display, Formatter, Result as Written};

/// The length of [`Recorder::record`].
pub const RECORD: usize = 6;

/// The length of the room for 1,024 holes at the front of [`Recorder::store`].
pub const HOLES_BYTES: usize = 8_192;

/// What became of a sample that was offered.
#[derive(Clone, Copy, Debug, PartialEq, Eq, Hash)]
pub enum Offered {
    /// It is stored until it is drained.
    Stored,
    /// It found no room, and its tick became part of a hole.
    InHole,
}

/// Why [`Recorder::trace`] makes no trace.
#[derive(Clone, Copy, Debug, PartialEq, Eq, Hash)]
pub enum NoTrace {
    /// The samples are not as many bytes as all that were ever stored.
    Samples {
        /// The bytes that were given.
        given: usize,
        /// The bytes of all samples.
        wanted: usize,
    },
    /// The record was taken up with more samples ever stored, so many, than the 65,535 of a trace.
    EverStored(u32),
}

impl Display for NoTrace {
    fn fmt(&self, f: &mut Formatter<'_>) -> Written {
        match self {
            NoTrace::Samples { given, wanted } => {
                write!(f, "the samples are {given} bytes: drain all, and give the {wanted} bytes drained, in order")
            }
            NoTrace::EverStored(ever) => write!(f, "{ever} samples were ever stored, as the record says: a trace has at most 65535"),
        }
    }
}

impl Error for NoTrace {}

/// Keeps samples until they are drained, and a hole for every tick that it could not keep: the writing side, for a capture card.
///
/// Every tick below [`ticks`](Recorder::ticks) is in exactly one sample, drained or stored, or in exactly one hole.
///
/// ```
/// use buttmitrel::{judge, Offered, Recorder};
///
/// // Room for two samples of three cells.
/// let mut recorder = Recorder::start(3, 2)?;
/// let offer = |recorder: &mut Recorder, tick| recorder.offer(tick, 1_500, 300, &[4_250, 4_140, 4_130], &[250; 3]);
/// assert_eq!(offer(&mut recorder, 0)?, Offered::Stored);
/// assert_eq!(offer(&mut recorder, 1)?, Offered::Stored);
/// assert_eq!(offer(&mut recorder, 2)?, Offered::InHole);
///
/// // Ticks 3 and 4 are skipped, and join the hole of tick 2.
/// let mut samples = vec![0; 60];
/// assert_eq!(recorder.drain(&mut samples), 2);
/// assert_eq!(offer(&mut recorder, 5)?, Offered::Stored);
/// assert_eq!(recorder.holes(), [2, 0, 0, 0, 4, 0, 0, 0]);
///
/// // All is drained: a trace.
/// assert_eq!(recorder.drain(&mut samples[40..]), 1);
/// let trace = recorder.trace(100, &[0; 160], &samples)?;
/// let totals = judge(&trace)?.totals;
/// assert_eq!((totals.ticks, totals.unseen_ticks), (6, 3));
///
/// // The next tick is 6.
/// let refused = offer(&mut recorder, 5).unwrap_err();
/// assert_eq!((refused.number, refused.place), (9, 6));
/// # Ok::<(), Box<dyn std::error::Error>>(())
/// ```
#[derive(Clone, Debug, PartialEq, Eq, Hash)]
pub struct Recorder {
    pub(crate) record: [u32; RECORD],
    pub(crate) store: Vec<u8>,
}

impl Recorder {
    /// Starts a recorder of so many cells with room for so many samples, and allocates that room. Refusal 3. A trace has at most 65,535
    /// samples, so no more are ever stored.
    pub fn start(cells: u8, number: u32) -> Result<Recorder, Refused> {
        let mut record = [0; RECORD];
        calls::recorder_start(cells, number, &mut record)?;
        Ok(Recorder { record, store: vec![0; HOLES_BYTES + number as usize * (8 + 4 * cells as usize)] })
    }

    /// Takes up a recorder whose [`record`](Recorder::record) and [`store`](Recorder::store) were kept, both of the same moment. Refusal
    /// 16 unless these are six numbers, 3 to 12 cells, and at least 8192 + number * (8 + 4 * cells) bytes, with counts that have room.
    pub fn resume(record: &[u32], store: &[u8]) -> Result<Recorder, Refused> {
        calls::recorder_drain(&mut record.to_vec(), store, &mut [])?;
        Ok(Recorder { record: whole(record), store: store.to_vec() })
    }

    /// Offers the sample of the next tick or of a later one: current in mA, board temperature in 0.1 °C, and of each cell the voltage
    /// in mV and the temperature in 0.1 °C. Refusals 15, 9, and 17 where a new hole is needed and there are 1,024: then drain and offer
    /// the same tick again, and if that is refused too, end the trace.
    pub fn offer(&mut self, tick: u32, current: i16, board: i16, volts: &[u16], temps: &[i16]) -> Result<Offered, Refused> {
        Ok(match calls::recorder_offer(self, tick, current, board, volts, temps)? {
            0 => Offered::Stored,
            1 => Offered::InHole,
            other => unreachable!("the library answered {other}"),
        })
    }

    /// Drains the oldest samples to the front of the caller's bytes, as many whole ones as they hold, and answers how many. A sample has
    /// [`sample_bytes`](Recorder::sample_bytes) bytes, those of a trace.
    pub fn drain(&mut self, buffer: &mut [u8]) -> usize {
        let drained = calls::recorder_drain(&mut self.record, &self.store, buffer);
        drained.expect("what a recorder keeps is a state") as usize
    }

    /// How many bytes a sample has: 8 and 4 for each cell.
    pub fn sample_bytes(&self) -> usize {
        8 + 4 * self.record[0] as usize
    }

    /// How many ticks are recorded, and so the next tick.
    pub fn ticks(&self) -> u32 {
        self.record[2]
    }

    /// How many samples are stored and not drained.
    pub fn stored(&self) -> usize {
        self.record[4] as usize
    }

    /// How many samples were ever stored, drained or not. At 65,535 every tick that is offered becomes part of a hole: end the trace.
    pub fn ever_stored(&self) -> usize {
        self.record[5] as usize
    }

    /// The holes as a trace has them: 8 bytes each, first tick and last tick.
    pub fn holes(&self) -> &[u8] {
        &self.store[..8 * self.record[3] as usize]
    }

    /// The bytes of a trace with this idle current, the rules that [`rule_bytes`](crate::rule_bytes) makes, the holes, no replies and
    /// the samples, which must be as many as were ever stored. Handed all that was drained, in order, [`judge`](crate::judge())
    /// accepts the trace where it accepts idle current and rules.
    pub fn trace(&self, idle: u16, rules: &[u8; RULES_BYTES], samples: &[u8]) -> Result<Vec<u8>, NoTrace> {
        let [cells, _, _, holes, _, ever] = self.record;
        let count = u16::try_from(ever).map_err(|_| NoTrace::EverStored(ever))?;
        let (given, wanted) = (samples.len(), self.ever_stored() * self.sample_bytes());
        if given != wanted {
            return Err(NoTrace::Samples { given, wanted });
        }
        let head = [&[1, cells as u8][..], &idle.to_le_bytes(), &[16, 0], rules].concat();
        let sections = [&(holes as u16).to_le_bytes()[..], self.holes(), &[0, 0], &count.to_le_bytes(), samples].concat();
        Ok([head, sections].concat())
    }

    /// Cells, room, next tick, holes, samples stored and not drained, samples ever stored.
    pub fn record(&self) -> &[u32; RECORD] {
        &self.record
    }

    /// The holes, 8,192 bytes from the front, then the samples.
    pub fn store(&self) -> &[u8] {
        &self.store
    }
}
