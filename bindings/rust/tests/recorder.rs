// The recorder: the card of examples/c/recorder.c, the limits of each call, and states that are none.
use buttmitrel::{judge, rule_bytes, NoTrace, Offered, Recorder, Refused, Rule, HOLES_BYTES};
use std::fs;
use std::path::Path;

fn refused<T>(number: u32, place: u32) -> Result<T, Refused> {
    Err(Refused { number, place })
}

fn offer(recorder: &mut Recorder, tick: u32) -> Result<Offered, Refused> {
    let highest = if (11..=23).contains(&tick) { 4_250 } else { 4_150 };
    recorder.offer(tick, 1_500, 300, &[highest, 4_140, 4_130], &[250; 3])
}

// Drains at most so many samples behind those that were drained.
fn drain(recorder: &mut Recorder, most: usize, samples: &mut Vec<u8>) -> usize {
    let mut buffer = vec![0; most * recorder.sample_bytes()];
    let count = recorder.drain(&mut buffer);
    samples.extend(&buffer[..count * recorder.sample_bytes()]);
    count
}

// First and last ticks.
fn holes(recorder: &Recorder) -> Vec<(u32, u32)> {
    let tick = |bytes: &[u8]| u32::from_le_bytes(bytes.try_into().unwrap());
    recorder.holes().chunks_exact(8).map(|hole| (tick(&hole[..4]), tick(&hole[4..]))).collect()
}

// A recorder with 1,024 holes of one tick, the even ones, and the last of the odd ones stored in its only place.
fn all_holes() -> Recorder {
    let mut recorder = Recorder::start(3, 1).unwrap();
    for tick in (1..2_048).step_by(2) {
        recorder.drain(&mut [0; 20]);
        assert_eq!(offer(&mut recorder, tick), Ok(Offered::Stored));
    }
    recorder
}

// What examples/README.md says of each tick.
#[test]
fn the_card() {
    let (mut recorder, mut samples, mut no_room) = (Recorder::start(3, 6).unwrap(), Vec::new(), Vec::new());
    for tick in 0..30 {
        if !(20..=22).contains(&tick) && offer(&mut recorder, tick).unwrap() == Offered::InHole {
            no_room.push(tick);
        }
        if tick % 5 == 4 {
            assert_eq!(drain(&mut recorder, 3, &mut samples), 3);
        }
    }
    assert_eq!((recorder.stored(), recorder.ticks()), (3, 30));
    assert_eq!(no_room, [9, 13, 14, 18, 19, 29]);
    assert_eq!(holes(&recorder), [(9, 9), (13, 14), (18, 22), (29, 29)]);
    let mut rules = [Rule::OFF; 16];
    rules[0] = Rule { threshold: 4_200, recovery: 4_100, time: 3 };
    let no_trace = NoTrace::Samples { given: 360, wanted: 420 };
    assert_eq!(recorder.trace(100, &rule_bytes(&rules), &samples), Err(no_trace));
    assert_eq!(no_trace.to_string(), "the samples are 360 bytes: drain all, and give the 420 bytes drained, in order");
    assert_eq!(drain(&mut recorder, 9, &mut samples), 3);
    assert_eq!(drain(&mut recorder, 9, &mut samples), 0);
    let trace = recorder.trace(100, &rule_bytes(&rules), &samples).unwrap();
    let file = Path::new(env!("CARGO_MANIFEST_DIR")).join("../../examples/recorder.trace");
    assert_eq!(trace, fs::read(file).unwrap());
    assert_eq!((recorder.record(), recorder.ever_stored()), (&[3, 6, 30, 4, 0, 21], 21));
}

#[test]
fn refused_starts() {
    assert_eq!(Recorder::start(2, u32::MAX), refused(3, 0));
    assert_eq!(Recorder::start(13, 0), refused(3, 0));
    for cells in 3..=12 {
        let recorder = Recorder::start(cells, 5).unwrap();
        assert_eq!(recorder.store().len(), HOLES_BYTES + 5 * recorder.sample_bytes());
        assert_eq!((recorder.ticks(), recorder.stored(), recorder.holes().len()), (0, 0, 0));
    }
}

// 15, 9, 17, in that order; a refused offer leaves the recorder as it was.
#[test]
fn refused_offers() {
    let mut recorder = all_holes();
    let before = recorder.clone();
    assert_eq!(recorder.offer(5, 0, 0, &[4_000; 2], &[250; 3]), refused(15, 0));
    assert_eq!(recorder.offer(5, 0, 0, &[4_000; 3], &[250; 4]), refused(15, 0));
    assert_eq!(offer(&mut recorder, 2_047), refused(9, 2_048));
    assert_eq!(offer(&mut recorder, u32::MAX), refused(9, 2_048));
    assert_eq!(offer(&mut recorder, 2_048), refused(17, 0));
    assert_eq!(offer(&mut recorder, u32::MAX - 1), refused(17, 0));
    assert_eq!(recorder, before);
}

#[test]
fn with_1024_holes() {
    let mut recorder = all_holes();
    assert_eq!(holes(&recorder).last(), Some(&(2_046, 2_046)));
    assert_eq!(offer(&mut recorder, 2_048), refused(17, 0));
    recorder.drain(&mut [0; 20]);
    assert_eq!(offer(&mut recorder, 2_049), refused(17, 0));
    assert_eq!(offer(&mut recorder, 2_048), Ok(Offered::Stored));

    // The last hole is joined, however many there are.
    let mut recorder = Recorder::resume(&[3, 0, 2_047, 1_024, 0, 0], all_holes().store()).unwrap();
    assert_eq!(offer(&mut recorder, 2_047), Ok(Offered::InHole));
    assert_eq!(offer(&mut recorder, 3_000), Ok(Offered::InHole));
    assert_eq!(holes(&recorder).last(), Some(&(2_046, 3_000)));
}

// One offer skips ticks and finds no room: one hole, up to the last tick that a trace can have.
#[test]
fn no_room_at_all() {
    let mut recorder = Recorder::start(12, 0).unwrap();
    assert_eq!(recorder.offer(7, 0, 0, &[4_000; 12], &[250; 12]), Ok(Offered::InHole));
    assert_eq!(holes(&recorder), [(0, 7)]);
    assert_eq!(recorder.offer(u32::MAX - 1, 0, 0, &[4_000; 12], &[250; 12]), Ok(Offered::InHole));
    assert_eq!(recorder.offer(u32::MAX, 0, 0, &[4_000; 12], &[250; 12]), refused(9, u32::MAX));
    assert_eq!(recorder.drain(&mut [0; 999]), 0);
    let trace = recorder.trace(0, &[0; 160], &[]).unwrap();
    assert_eq!(judge(&trace).unwrap().totals.unseen_ticks, u32::MAX);
}

// A trace has at most 65,535 samples.
#[test]
fn samples_that_a_trace_can_have() {
    let (mut recorder, mut samples) = (Recorder::start(3, 3).unwrap(), Vec::new());
    for tick in 0..65_535 {
        assert_eq!(offer(&mut recorder, tick), Ok(Offered::Stored));
        assert_eq!(drain(&mut recorder, 1, &mut samples), 1);
    }
    assert_eq!(offer(&mut recorder, 65_535), Ok(Offered::InHole));
    assert_eq!((holes(&recorder), recorder.stored()), (vec![(65_535, 65_535)], 0));
    let totals = judge(&recorder.trace(0, &[0; 160], &samples).unwrap()).unwrap().totals;
    assert_eq!((totals.ticks, totals.unseen_ticks, totals.charge_in_mas), (65_536, 1, 65_535 * 1_500));

    // A forged count is not cut to 16 bits.
    let forged = Recorder::resume(&[3, 0, 0, 0, 0, 65_536], &[0; HOLES_BYTES]).unwrap();
    let no_trace = forged.trace(0, &[0; 160], &[]).unwrap_err();
    assert_eq!(no_trace, NoTrace::EverStored(65_536));
    assert_eq!(no_trace.to_string(), "65536 samples were ever stored, as the record says: a trace has at most 65535");
}

// Whole samples alone are drained, and what is behind them stays as it was.
#[test]
fn short_buffers() {
    let mut recorder = Recorder::start(3, 2).unwrap();
    offer(&mut recorder, 0).unwrap();
    offer(&mut recorder, 1).unwrap();
    let mut buffer = [77; 59];
    assert_eq!(recorder.drain(&mut buffer[..19]), 0);
    assert_eq!(buffer, [77; 59]);
    assert_eq!(recorder.drain(&mut buffer[..39]), 1);
    let sample = [0, 0, 0, 0, 0xDC, 5, 0x2C, 1, 0x36, 0x10, 0x2C, 0x10, 0x22, 0x10, 250, 0, 250, 0, 250, 0];
    assert_eq!((&buffer[..20], &buffer[20..]), (&sample[..], &[77; 39][..]));
    assert_eq!(recorder.drain(&mut buffer), 1);
    assert_eq!((buffer[0], &buffer[1..20], &buffer[20..]), (1, &sample[1..], &[77; 39][..]));
}

#[test]
fn states_that_are_none() {
    let recorder = all_holes();
    let (record, store) = (*recorder.record(), recorder.store());
    assert_eq!(Recorder::resume(&record, store).as_ref(), Ok(&recorder));
    assert_eq!(Recorder::resume(&record[..5], store), refused(16, 0));
    assert_eq!(Recorder::resume(&record, &store[1..]), refused(16, 0));
    for (index, wrong) in [(0, 4), (1, 2), (1, u32::MAX), (3, 1_025), (4, 2)] {
        let mut forged = record;
        forged[index] = wrong;
        assert_eq!(Recorder::resume(&forged, store), refused(16, 0), "{index}");
    }
    for cells in [2, 13] {
        assert_eq!(Recorder::resume(&[cells, 0, 0, 0, 0, 0], store), refused(16, 0));
    }
    let longer = [store, &[77; 9]].concat();
    let mut recorder = Recorder::resume(&record, &longer).unwrap();
    assert_eq!(recorder.drain(&mut [0; 20]), 1);
    assert_eq!(offer(&mut recorder, 2_048), Ok(Offered::Stored));
    assert_eq!(recorder.store()[store.len()..], [77; 9]);
}
