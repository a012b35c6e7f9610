// CRC-8 a second time, written from its definition alone: the remainder of the message's bits, with eight zero bits
// after them, divided by 1 0000 0111. Reads messages, a line of hex digits each, and writes the code of each, a line of
// two hex digits.
use std::io::BufRead;

const DIVISOR: [bool; 9] = [true, false, false, false, false, false, true, true, true];

fn remainder(message: &[u8]) -> u8 {
    let mut bits: Vec<bool> = message.iter().flat_map(|byte| (0..8).rev().map(move |k| byte >> k & 1 == 1)).collect();
    let n = bits.len();
    bits.extend([false; 8]);
    for at in 0..n {
        if bits[at] {
            for k in 0..9 {
                bits[at + k] ^= DIVISOR[k];
            }
        }
    }
    bits[n..].iter().fold(0, |code, &bit| code * 2 + bit as u8)
}

fn main() {
    for line in std::io::stdin().lock().lines() {
        let line = line.expect("a line");
        let digits: Vec<u8> = line.chars().map(|c| c.to_digit(16).expect("a hex digit") as u8).collect();
        assert!(digits.len() % 2 == 0, "a message of whole bytes");
        let message: Vec<u8> = digits.chunks(2).map(|d| d[0] * 16 + d[1]).collect();
        println!("{:02x}", remainder(&message));
    }
}
