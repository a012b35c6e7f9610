// The verdicts on replies.
use super::readings::Readings;
use super::rows::Quantity::*;
use super::sections::u16_at;
use super::states::{output, statuses, States, CLEAR, HELD, UNKNOWN};

const fn codes() -> [u8; 256] {
    let mut table = [0; 256];
    let mut i = 0;
    while i < 256 {
        let mut code = i as u8;
        let mut bit = 0;
        while bit < 8 {
            code = if code & 0x80 != 0 { code << 1 ^ 0x07 } else { code << 1 };
            bit += 1;
        }
        table[i] = code;
        i += 1;
    }
    table
}

static CODES: [u8; 256] = codes();

fn agrees(yes: bool) -> u8 {
    if yes { 4 } else { 5 }
}

fn status_verdict(states: &impl States, word: u16) -> u8 {
    let statuses = statuses(states);
    let mut verdict = 4;
    for bit in [0x4000, 0x1000, 0x0800] {
        let (flag, reads) = (output(&statuses, |row| row.bits & bit != 0), word & bit != 0);
        if flag == HELD && !reads || flag == CLEAR && reads && bit == 0x1000 {
            return 5;
        }
        if flag == UNKNOWN {
            verdict = 6;
        }
    }
    verdict
}

// The verdict on six bus bytes, from the flags as they stand; no readings at a hole's tick.
pub fn verdict(states: &impl States, bus: &[u8], seen: Option<&Readings>) -> u8 {
    if bus[0] != 0x16 || bus[2] != 0x17 {
        return 1;
    }
    if bus[..5].iter().fold(0, |code, byte| CODES[(code ^ byte) as usize]) != bus[5] {
        return 2;
    }
    let word = u16_at(bus, 3);
    match (bus[1], seen) {
        (0x09, Some(r)) => agrees(word as i32 == r.values[SumOfCells as usize]),
        (0x0a, Some(r)) => agrees(word as i16 as i32 == r.values[Current as usize]),
        (0x09 | 0x0a, None) => 6,
        (0x16, _) => status_verdict(states, word),
        _ => 3,
    }
}
