// Highest, lowest and sum of cell voltages: the ten cells of examples/c/cells.c, and the limits of the call.
use buttmitrel::{cells, Cells, Refused};

#[test]
fn ten_cells() {
    let found = cells(&[3_612, 3_598, 3_605, 3_587, 3_611, 3_620, 3_601, 3_594, 3_609, 3_603]);
    assert_eq!(found, Ok(Cells { highest: 3_620, lowest: 3_587, sum: 36_040 }));
}

#[test]
fn every_place_of_highest_and_lowest() {
    for count in 3..=12 {
        for (high, low) in (0..count * count).map(|pair| (pair / count, pair % count)).filter(|(high, low)| high != low) {
            let mut volts = vec![3_600; count];
            (volts[high], volts[low]) = (3_700, 3_550);
            let sum = 3_600 * count as u32 + 50;
            assert_eq!(cells(&volts), Ok(Cells { highest: 3_700, lowest: 3_550, sum }), "{volts:?}");
        }
    }
}

#[test]
fn any_voltage() {
    for count in 3..=12 {
        for voltage in [0, 32_768, u16::MAX] {
            let (volts, each) = (vec![voltage; count], voltage as u32);
            assert_eq!(cells(&volts), Ok(Cells { highest: each, lowest: each, sum: each * count as u32 }));
        }
    }
}

#[test]
fn other_numbers_of_voltages() {
    for count in [0, 1, 2, 13, 14, 259, 65_539] {
        assert_eq!(cells(&vec![3_600; count]), Err(Refused { number: 3, place: 0 }));
    }
}
