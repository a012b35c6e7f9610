//! A trace in memory, and its bytes.

#[derive(Clone, Copy, Debug, PartialEq)]
pub struct Rule {
    pub threshold: i32,
    pub recovery: i32,
    pub time: u16,
}

pub const RULE_OFF: Rule = Rule { threshold: 0, recovery: 0, time: 0 };

#[derive(Clone, Copy, Debug, PartialEq)]
pub struct Hole {
    pub first: u32,
    pub last: u32,
}

#[derive(Clone, Copy, Debug, PartialEq)]
pub struct Reply {
    pub tick: u32,
    pub bus: [u8; 6],
}

#[derive(Clone, Debug, PartialEq)]
pub struct Sample {
    pub tick: u32,
    pub current: i16,
    pub board: i16,
    pub volts: Vec<u16>,
    pub temps: Vec<i16>,
}

#[derive(Clone, Debug, PartialEq)]
pub struct Trace {
    pub version: u8,
    pub cells: u8,
    pub idle: u16,
    pub rules: Vec<Rule>,
    pub holes: Vec<Hole>,
    pub replies: Vec<Reply>,
    pub samples: Vec<Sample>,
}

impl Trace {
    /// The bytes of the trace, each section after its own length as the count.
    pub fn encode(&self) -> Vec<u8> {
        let counts = [self.rules.len(), self.holes.len(), self.replies.len(), self.samples.len()];
        self.encode_with([counts[0] as u16, counts[1] as u16, counts[2] as u16, counts[3] as u16])
    }

    /// The bytes of the trace with the four counts as given, right or wrong.
    pub fn encode_with(&self, counts: [u16; 4]) -> Vec<u8> {
        let mut out = vec![self.version, self.cells];
        out.extend_from_slice(&self.idle.to_le_bytes());
        out.extend_from_slice(&counts[0].to_le_bytes());
        for rule in &self.rules {
            out.extend_from_slice(&rule.threshold.to_le_bytes());
            out.extend_from_slice(&rule.recovery.to_le_bytes());
            out.extend_from_slice(&rule.time.to_le_bytes());
        }
        out.extend_from_slice(&counts[1].to_le_bytes());
        for hole in &self.holes {
            out.extend_from_slice(&hole.first.to_le_bytes());
            out.extend_from_slice(&hole.last.to_le_bytes());
        }
        out.extend_from_slice(&counts[2].to_le_bytes());
        for reply in &self.replies {
            out.extend_from_slice(&reply.tick.to_le_bytes());
            out.extend_from_slice(&reply.bus);
        }
        out.extend_from_slice(&counts[3].to_le_bytes());
        for sample in &self.samples {
            sample.encode(&mut out);
        }
        out
    }
}

impl Sample {
    pub fn encode(&self, out: &mut Vec<u8>) {
        out.extend_from_slice(&self.tick.to_le_bytes());
        out.extend_from_slice(&self.current.to_le_bytes());
        out.extend_from_slice(&self.board.to_le_bytes());
        for volt in &self.volts {
            out.extend_from_slice(&volt.to_le_bytes());
        }
        for temp in &self.temps {
            out.extend_from_slice(&temp.to_le_bytes());
        }
    }
}
