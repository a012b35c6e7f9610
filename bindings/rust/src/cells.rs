use crate::calls;
use crate::refusal::Refused;

/// The highest and the lowest of cell voltages, and their sum, in mV.
#[derive(Clone, Copy, Debug, PartialEq, Eq, Hash)]
pub struct Cells {
    /// The highest voltage.
    pub highest: u32,
    /// The lowest voltage.
    pub lowest: u32,
    /// The sum of the voltages.
    pub sum: u32,
}

/// The highest, the lowest and the sum of 3 to 12 cell voltages in mV. Another number of them is refusal 3.
///
/// ```
/// use buttmitrel::{cells, Cells};
/// assert_eq!(cells(&[4_150, 4_140, 4_130]), Ok(Cells { highest: 4_150, lowest: 4_130, sum: 12_420 }));
/// assert_eq!(cells(&[4_150, 4_140]).unwrap_err().number, 3);
/// ```
pub fn cells(volts: &[u16]) -> Result<Cells, Refused> {
    let mut three = [0; 3];
    calls::cells(volts, &mut three)?;
    let [highest, lowest, sum] = three;
    Ok(Cells { highest, lowest, sum })
}
