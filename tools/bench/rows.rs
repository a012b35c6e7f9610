// The sixteen rules.

#[derive(Clone, Copy)]
pub enum Quantity {
    HighestCell,
    LowestCell,
    SumOfCells,
    Current,
    HighestTempCharging,
    HighestTempDischarging,
    Board,
    LowestTempDischarging,
    CellDifference,
}
use Quantity::*;

pub const C: u8 = 1;
pub const D: u8 = 2;
pub const FUSE: u8 = 4;

pub struct Row {
    pub quantity: Quantity,
    pub high: bool,
    pub recovers: bool,
    pub even: bool,
    pub drives: u8,
    pub bits: u16,
}

const fn row(quantity: Quantity, high: bool, recovers: bool, even: bool, drives: u8, bits: u16) -> Row {
    Row { quantity, high, recovers, even, drives, bits }
}

pub const ROWS: [Row; 16] = [
    row(HighestCell, true, true, false, C, 0x4000),
    row(LowestCell, false, true, false, D, 0x0800),
    row(SumOfCells, true, true, false, C, 0x4000),
    row(SumOfCells, false, true, false, D, 0x0800),
    row(Current, true, true, false, C, 0x4000),
    row(Current, false, true, false, D, 0x0800),
    row(HighestTempCharging, true, true, true, C, 0x5000),
    row(HighestTempDischarging, true, true, true, D, 0x1800),
    row(Board, true, true, true, C | D, 0x5800),
    row(LowestTempDischarging, false, true, true, D, 0x0800),
    row(HighestCell, true, false, false, C | D | FUSE, 0x4800),
    row(Current, true, false, false, C | D | FUSE, 0x4800),
    row(Current, false, false, false, C | D | FUSE, 0x4800),
    row(HighestTempCharging, true, false, true, C | D | FUSE, 0x5800),
    row(HighestTempDischarging, true, false, true, C | D | FUSE, 0x5800),
    row(CellDifference, true, false, false, C | D | FUSE, 0x4800),
];

impl Row {
    // How often the rule is evaluated at the ticks from `first` to `last`.
    pub fn evaluations(&self, first: u32, last: u32) -> u32 {
        if self.even { last / 2 + 1 - (first + 1) / 2 } else { last - first + 1 }
    }

    // The tick of the `k`-th of them.
    pub fn evaluation(&self, first: u32, k: u32) -> u32 {
        if self.even { first + first % 2 + 2 * (k - 1) } else { first + k - 1 }
    }
}
