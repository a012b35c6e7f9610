//! Histories of the recorder worked out on paper, n = 3 throughout: a sample has 20 bytes.

use crate::bytes::u32_at;
use crate::read::Refusal;
use crate::recorder::{drain, offer, start, Offered};
use crate::trace::Sample;

/// A recorder with its lists, and what was drained from it by tick.
struct Desk {
    record: Vec<u32>,
    store: Vec<u8>,
    drained: Vec<u32>,
}

const STORED: Result<Offered, Refusal> = Ok(Offered::Stored);
const DROPPED: Result<Offered, Refusal> = Ok(Offered::Dropped);

fn refused(number: u32, place: u32) -> Result<Offered, Refusal> {
    Err(Refusal { number, place })
}

impl Desk {
    fn new(number: u32) -> Desk {
        let mut desk = Desk { record: vec![7; 6], store: vec![9; 8_192 + 20 * number as usize], drained: vec![] };
        let started = start(3, number, &mut desk.record);
        assert!(started.is_ok(), "a start with 3 cells is not refused");
        desk
    }

    fn offer(&mut self, tick: u32) -> Result<Offered, Refusal> {
        let sample = Sample { tick, current: -5, board: 250, volts: vec![3_700; 3], temps: vec![210; 3] };
        offer(&mut self.record, &mut self.store, &sample)
    }

    fn drain(&mut self, length: usize) -> Result<u32, Refusal> {
        let mut buffer = vec![0; length];
        let count = drain(&mut self.record, &self.store, &mut buffer)?;
        self.drained.extend(buffer.chunks_exact(20).take(count as usize).map(|sample| u32_at(sample, 0)));
        Ok(count)
    }

    /// First and last tick of the hole at this index.
    fn hole(&self, index: usize) -> (u32, u32) {
        (u32_at(&self.store, 8 * index), u32_at(&self.store, 8 * index + 4))
    }
}

/// Number 2. Tick 0 is stored. 3 is stored behind the hole 1 to 2. 4 finds two stored: hole 4 to 4, which does not
/// touch 2. 6 finds two stored as well: 5 and 6 touch 4, so 4 to 6. 39 bytes hold one sample, that of tick 0. 7 is the
/// third ever stored and takes the place of tick 0. The oldest is then at (3 - 2) mod 2 = 1: 3 comes out before 7.
fn drops_and_joins() -> bool {
    let mut desk = Desk::new(2);
    let first = [desk.offer(0), desk.offer(3), desk.offer(4), desk.offer(6)] == [STORED, STORED, DROPPED, DROPPED];
    let numbers = desk.record == [3, 2, 7, 2, 2, 2] && (desk.hole(0), desk.hole(1)) == ((1, 2), (4, 6));
    let then = desk.drain(39) == Ok(1) && desk.offer(7) == STORED && desk.record == [3, 2, 8, 2, 2, 3];
    let placed = u32_at(&desk.store, 8_192) == 7 && u32_at(&desk.store, 8_212) == 3;
    let last = desk.drain(41) == Ok(2) && desk.record == [3, 2, 8, 2, 0, 3] && desk.drained == [0, 3, 7];
    first && numbers && then && placed && last && desk.drain(20) == Ok(0)
}

/// Number 0: ticks 0, then 1 to 5, then 6 to 9 all go to one hole. 9 again is passed: the next tick is 10.
fn nothing_stored() -> bool {
    let mut desk = Desk::new(0);
    let offers = [desk.offer(0), desk.offer(5), desk.offer(9), desk.offer(9)];
    offers == [DROPPED, DROPPED, DROPPED, refused(9, 10)]
        && desk.record == [3, 0, 10, 1, 0, 0]
        && desk.hole(0) == (0, 9)
}

/// 4,294,967,295 is no tick. The one before it is stored behind a hole over all others, and no tick is left then.
fn last_tick() -> bool {
    let end = 4_294_967_295;
    let mut desk = Desk::new(2);
    let offers = [desk.offer(end), desk.offer(end - 1), desk.offer(end - 1), desk.offer(end)];
    offers == [refused(9, 0), STORED, refused(9, end), refused(9, end)]
        && desk.hole(0) == (0, end - 2)
        && desk.record == [3, 2, end, 1, 1, 1]
}

/// Number 1. Each of 1,024 rounds skips tick 2k and stores 2k + 1. The last hole is then 2,046 to 2,046 and the next
/// tick 2,048: 2,049 would need a hole, 2,048 is stored, 2,049 needs a hole again as one is stored, and none after a
/// drain.
fn all_holes_taken() -> bool {
    let mut desk = Desk::new(1);
    for k in 0..1_024 {
        if desk.offer(2 * k + 1) != STORED || desk.drain(20) != Ok(1) {
            return false;
        }
    }
    let full = desk.record == [3, 1, 2_048, 1_024, 0, 1_024] && desk.hole(1_023) == (2_046, 2_046);
    let before = [desk.offer(2_049), desk.offer(2_048), desk.offer(2_049)] == [refused(17, 0), STORED, refused(17, 0)];
    full && before
        && desk.drain(20) == Ok(1)
        && desk.offer(2_049) == STORED
        && desk.record == [3, 1, 2_050, 1_024, 1, 1_026]
}

/// The 1,024th hole is the dropped tick 2,047, so the next tick touches it and 1,024 holes do not matter: 2,050 is
/// dropped into 2,047 to 2,050; after a drain 2,053 is stored, and 2,051 and 2,052 are joined.
fn last_hole_touches() -> bool {
    let mut desk = Desk::new(1);
    for k in 0..1_023 {
        if desk.offer(2 * k + 1) != STORED || desk.drain(20) != Ok(1) {
            return false;
        }
    }
    let before = [desk.offer(2_046), desk.offer(2_047), desk.offer(2_050)] == [STORED, DROPPED, DROPPED];
    let joined = desk.hole(1_023) == (2_047, 2_050);
    let after = desk.drain(20) == Ok(1) && desk.offer(2_053) == STORED;
    before && joined && after && desk.hole(1_023) == (2_047, 2_052) && desk.record == [3, 1, 2_054, 1_024, 1, 1_025]
}

/// Number 1, drained after each of 65,535 samples. There is room for one more, and it still becomes a hole.
fn all_samples_taken() -> bool {
    let mut desk = Desk::new(1);
    for tick in 0..65_535 {
        if desk.offer(tick) != STORED || desk.drain(20) != Ok(1) {
            return false;
        }
    }
    let more = [desk.offer(65_535), desk.offer(65_537)] == [DROPPED, DROPPED];
    more && desk.hole(0) == (65_535, 65_537) && desk.record == [3, 1, 65_538, 1, 0, 65_535]
}

/// A forged record of number 5, one stored, none ever: the oldest is at -1 mod 5 = 4, and the next one goes to 0.
fn forged_ever() -> bool {
    let mut desk = Desk::new(5);
    desk.record = vec![3, 5, 70, 0, 1, 0];
    desk.store[8_192 + 80..8_192 + 84].copy_from_slice(&[77, 0, 0, 0]);
    let stored = desk.offer(70) == STORED && desk.record == [3, 5, 71, 0, 2, 1] && u32_at(&desk.store, 8_192) == 70;
    stored && desk.drain(40) == Ok(2) && desk.drained == [77, 70] && desk.record == [3, 5, 71, 0, 0, 1]
}

/// The number of histories that came out otherwise than on paper.
pub fn run() -> usize {
    let cases = [
        ("drops and joins", drops_and_joins()),
        ("nothing stored", nothing_stored()),
        ("last tick", last_tick()),
        ("all holes taken", all_holes_taken()),
        ("last hole touches", last_hole_touches()),
        ("all samples taken", all_samples_taken()),
        ("forged ever", forged_ever()),
    ];
    let mut wrong = 0;
    for (name, right) in cases {
        if !right {
            println!("history '{}' of the recorder is wrong", name);
            wrong += 1;
        }
    }
    println!("histories of the recorder, worked out by hand: {} wrong", wrong);
    wrong
}
