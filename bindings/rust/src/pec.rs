use crate::calls;
use crate::refusal::Refused;

/// What [`check`] finds of a reply's address bytes and packet error code.
#[derive(Clone, Copy, Debug, PartialEq, Eq, Hash)]
pub enum Check {
    /// Both are right.
    Whole,
    /// An address byte is wrong.
    WrongAddress,
    /// The packet error code is wrong.
    WrongPec,
}

/// The six bytes of a read-word reply: address, command, address, low byte, high byte, packet error code.
///
/// ```
/// assert_eq!(buttmitrel::seal(0x09, 12_600), [0x16, 0x09, 0x17, 0x38, 0x31, 0xAD]);
/// ```
pub fn seal(command: u8, word: u16) -> [u8; 6] {
    let mut reply = [0; 6];
    calls::seal(command, word, &mut reply).expect("six bytes are taken");
    reply
}

/// Checks a reply's address bytes and packet error code. A reply that is not six bytes is refusal 15.
///
/// ```
/// use buttmitrel::{check, seal, Check};
/// let mut reply = seal(0x0A, 1_500);
/// assert_eq!(check(&reply), Ok(Check::Whole));
/// reply[5] ^= 1;
/// assert_eq!(check(&reply), Ok(Check::WrongPec));
/// assert_eq!(check(&reply[..5]).unwrap_err().number, 15);
/// ```
pub fn check(reply: &[u8]) -> Result<Check, Refused> {
    Ok(match calls::check(reply)? {
        0 => Check::Whole,
        1 => Check::WrongAddress,
        2 => Check::WrongPec,
        other => unreachable!("the library answered {other}"),
    })
}
