//! Calls of the cells worked out on paper.

use crate::cells::cells;
use crate::read::Refusal;

/// What stands in the lent list before a call.
const BEFORE: u32 = 7;

/// That a call puts these three in the list.
fn gives(volts: &[u16], expected: [u32; 3]) -> bool {
    let mut three = [BEFORE; 3];
    cells(volts, &mut three) == Ok(()) && three == expected
}

/// That a call is refused with this number, and leaves the list as it was.
fn refused(volts: &[u16], three_len: usize, number: u32) -> bool {
    let mut three = vec![BEFORE; three_len];
    cells(volts, &mut three) == Err(Refusal { number, place: 0 }) && three == vec![BEFORE; three_len]
}

/// The number of calls that came out otherwise than on paper.
pub fn run() -> usize {
    let cases = [
        ("lowest first", gives(&[3_700, 4_200, 3_900], [4_200, 3_700, 11_800])),
        ("lowest last", gives(&[4_200, 4_150, 4_150, 4_100], [4_200, 4_100, 16_600])),
        ("all empty", gives(&[0; 3], [0, 0, 0])),
        ("greatest sum", gives(&[65_535; 12], [65_535, 65_535, 786_420])),
        ("both ends", gives(&[32_768, 65_535, 0, 32_767, 1], [65_535, 0, 131_071])),
        ("two cells", refused(&[3_700; 2], 3, 3)),
        ("thirteen cells", refused(&[3_700; 13], 3, 3)),
        ("no cell and no room", refused(&[], 0, 3)),
        ("room for two", refused(&[3_700; 3], 2, 15)),
        ("room for four", refused(&[3_700; 12], 4, 15)),
    ];
    let mut wrong = 0;
    for (name, right) in cases {
        if !right {
            println!("call '{}' of the cells is wrong", name);
            wrong += 1;
        }
    }
    println!("calls of the cells, worked out by hand: {} wrong", wrong);
    wrong
}
