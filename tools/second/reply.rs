//! Replies: the packet error code and the verdict.

use crate::report::{output, Flag};
use crate::rules::sum_of_cells;
use crate::trace::Sample;

/// CRC-8 with polynomial x^8+x^2+x+1, start 0, most significant bit first.
pub fn crc8(bytes: &[u8]) -> u8 {
    let mut crc = 0u8;
    for byte in bytes {
        crc ^= byte;
        for _ in 0..8 {
            let carry = crc & 0x80 != 0;
            crc <<= 1;
            if carry {
                crc ^= 0x07;
            }
        }
    }
    crc
}

/// Six bus bytes that pass the check.
pub fn seal(command: u8, word: u16) -> [u8; 6] {
    let [low, high] = word.to_le_bytes();
    let pec = crc8(&[0x16, command, 0x17, low, high]);
    [0x16, command, 0x17, low, high, pec]
}

fn agrees(yes: bool) -> u8 {
    if yes {
        4
    } else {
        5
    }
}

fn status_verdict(word: u16, statuses: &[Flag; 16]) -> u8 {
    let mut unknown = false;
    for bit in [0x4000, 0x1000, 0x0800] {
        let flag = output(statuses, |row| row.bits & bit != 0);
        let reads_one = word & bit != 0;
        if flag == Flag::Held && !reads_one {
            return 5;
        }
        if bit == 0x1000 && flag == Flag::Clear && reads_one {
            return 5;
        }
        unknown |= flag == Flag::Unknown;
    }
    if unknown {
        6
    } else {
        4
    }
}

/// The verdict from the flags after the tick's evaluations; no sample at a hole's tick.
pub fn verdict(bus: &[u8; 6], sample: Option<&Sample>, statuses: &[Flag; 16]) -> u8 {
    if bus[0] != 0x16 || bus[2] != 0x17 {
        return 1;
    }
    if crc8(&bus[..5]) != bus[5] {
        return 2;
    }
    let word = u16::from_le_bytes([bus[3], bus[4]]);
    match (bus[1], sample) {
        (0x09, Some(sample)) => agrees(word as u32 == sum_of_cells(sample)),
        (0x0A, Some(sample)) => agrees(word as i16 == sample.current),
        (0x09, None) | (0x0A, None) => 6,
        (0x16, _) => status_verdict(word, statuses),
        _ => 3,
    }
}
