//! What the histories of a run covered.

use crate::count::need;

/// The refusals of an offer, in their order.
pub const OFFER: [u64; 4] = [16, 15, 9, 17];

#[derive(Default)]
pub struct Counts {
    pub histories: u64,
    pub calls: u64,
    /// Calls after somebody else wrote to the record or the store.
    pub forged: u64,
    /// Calls by the number of their refusal, 0 for none.
    pub starts: [u64; 18],
    pub offers: [u64; 18],
    pub drains: [u64; 18],
    /// Starts with the causes of both refusals.
    pub starts_of_both: u64,
    pub stored: u64,
    pub dropped: u64,
    pub drained: u64,
    /// Offers with a hole that was joined to the last one of 1,024.
    pub joined: u64,
    /// Offers that were stored after 17 and a drain.
    pub again: u64,
    /// Fresh histories that came to 1,024 holes, and to 65,535 samples.
    pub most_holes: u64,
    pub most_ever: u64,
    /// Fresh histories whose trace both judges accepted.
    pub traces: u64,
    /// Offers with several causes of refusal, a bit for each number of OFFER.
    pub causes: [u64; 16],
    /// Calls refused for each line of 16.
    pub lines: [u64; 6],
}

/// The numbers of OFFER whose bits are set.
pub fn numbers_of(causes: usize) -> Vec<u64> {
    (0..4).filter(|bit| causes >> bit & 1 == 1).map(|bit| OFFER[bit]).collect()
}

fn refused(counts: &[u64; 18]) -> String {
    let some = counts.iter().enumerate().skip(1).filter(|(_, count)| **count > 0);
    some.map(|(number, count)| format!(" {}:{}", number, count)).collect()
}

impl Counts {
    pub fn missing(&self) -> Vec<String> {
        let mut out = Vec::new();
        for number in [3, 15] {
            need(&mut out, self.starts[number], format!("start refused with {}", number));
        }
        for number in OFFER {
            need(&mut out, self.offers[number as usize], format!("offer refused with {}", number));
        }
        need(&mut out, self.drains[16], "drain refused with 16".to_string());
        for (causes, count) in self.causes.iter().enumerate().skip(1) {
            need(&mut out, *count, format!("offer with causes {:?}", numbers_of(causes)));
        }
        for (line, count) in self.lines.iter().enumerate() {
            need(&mut out, *count, format!("line {} of refusal 16", line));
        }
        let others = [
            (self.starts_of_both, "start with causes [3, 15]"),
            (self.stored, "sample stored"),
            (self.dropped, "sample dropped"),
            (self.drained, "sample drained"),
            (self.joined, "hole joined to the last of 1,024"),
            (self.again, "sample stored after 17 and a drain"),
            (self.most_holes, "history with 1,024 holes"),
            (self.most_ever, "history with 65,535 samples"),
            (self.traces, "trace accepted"),
            (self.forged, "forged call"),
        ];
        for (count, name) in others {
            need(&mut out, count, name.to_string());
        }
        out
    }

    pub fn summary(&self) -> String {
        format!(
            "{} histories, {} calls, {} of them forged; refused: start{}, offer{}, drain{}; samples stored {}, \
             dropped {}, drained {}; joined to the last of 1,024 holes {}; stored after 17 and a drain {}; \
             histories with 1,024 holes {}, with 65,535 samples {}; traces accepted {}",
            self.histories,
            self.calls,
            self.forged,
            refused(&self.starts),
            refused(&self.offers),
            refused(&self.drains),
            self.stored,
            self.dropped,
            self.drained,
            self.joined,
            self.again,
            self.most_holes,
            self.most_ever,
            self.traces
        )
    }
}
