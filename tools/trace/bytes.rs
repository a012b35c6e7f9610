// A trace as records, and its bytes.

#[derive(Clone)]
pub struct Sample {
    pub tick: u32,
    pub current: i16,
    pub board: i16,
    pub volts: Vec<u16>,
    pub temps: Vec<i16>,
}

// A rule is its threshold, recovery and time; a hole its first and last tick; a reply its tick and bus bytes.
#[derive(Clone)]
pub struct Trace {
    pub version: u8,
    pub cells: u8,
    pub idle: u16,
    pub rules: [(i32, i32, u16); 16],
    pub holes: Vec<(u32, u32)>,
    pub replies: Vec<(u32, [u8; 6])>,
    pub samples: Vec<Sample>,
}

impl Trace {
    // No record, and all rules off.
    pub fn new(cells: u8) -> Trace {
        let (holes, replies, samples) = (Vec::new(), Vec::new(), Vec::new());
        Trace { version: 1, cells, idle: 0, rules: [(0, 0, 0); 16], holes, replies, samples }
    }

    pub fn bytes(&self) -> Vec<u8> {
        let mut out = vec![self.version, self.cells];
        out.extend(self.idle.to_le_bytes());
        out.extend(16u16.to_le_bytes());
        for (threshold, recovery, time) in self.rules {
            out.extend(threshold.to_le_bytes());
            out.extend(recovery.to_le_bytes());
            out.extend(time.to_le_bytes());
        }
        out.extend((self.holes.len() as u16).to_le_bytes());
        for (first, last) in &self.holes {
            out.extend(first.to_le_bytes());
            out.extend(last.to_le_bytes());
        }
        out.extend((self.replies.len() as u16).to_le_bytes());
        for (tick, bus) in &self.replies {
            out.extend(tick.to_le_bytes());
            out.extend(bus);
        }
        out.extend((self.samples.len() as u16).to_le_bytes());
        for s in &self.samples {
            out.extend(s.tick.to_le_bytes());
            out.extend(s.current.to_le_bytes());
            out.extend(s.board.to_le_bytes());
            out.extend(s.volts.iter().flat_map(|v| v.to_le_bytes()));
            out.extend(s.temps.iter().flat_map(|t| t.to_le_bytes()));
        }
        out
    }
}

// CRC-8 bit by bit: a bit that falls out comes back as x^2 + x + 1.
pub fn pec(message: &[u8]) -> u8 {
    let mut code = 0u8;
    for bit in message.iter().flat_map(|byte| (0..8).rev().map(move |k| byte >> k & 1)) {
        let out = code >> 7 ^ bit;
        code = code << 1 ^ out * 7;
    }
    code
}

// The bus bytes of a reply.
pub fn seal(command: u8, word: u16) -> [u8; 6] {
    let [low, high] = word.to_le_bytes();
    [0x16, command, 0x17, low, high, pec(&[0x16, command, 0x17, low, high])]
}
