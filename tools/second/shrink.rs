//! From a trace that differs to the smallest one found that still differs.

use crate::read::read;
use crate::trace::{Hole, Rule, Sample, Trace, RULE_OFF};
use std::time::{Duration, Instant};

/// The smallest trace so far, and the test that it meets.
struct Search<'a> {
    best: Vec<u8>,
    differs: &'a dyn Fn(&[u8]) -> bool,
    end: Instant,
}

/// How simple a trace is: its length, then its unseen ticks, then the sum of its bytes.
fn weight(bytes: &[u8]) -> (usize, u64, u64) {
    let unseen = read(bytes).map_or(0, |t| t.holes.iter().map(|h| h.last.saturating_sub(h.first) as u64).sum());
    (bytes.len(), unseen, bytes.iter().map(|b| *b as u64).sum())
}

impl<'a> Search<'a> {
    /// Takes the bytes if they are simpler and still differ, and there is time left.
    fn attempt(&mut self, bytes: Vec<u8>) -> bool {
        if self.over() || weight(&bytes) >= weight(&self.best) || !(self.differs)(&bytes) {
            return false;
        }
        self.best = bytes;
        true
    }

    fn change(&mut self, trace: &Trace, change: &dyn Fn(&mut Trace)) -> bool {
        if self.over() {
            return false;
        }
        let mut next = trace.clone();
        change(&mut next);
        self.attempt(next.encode())
    }

    fn over(&self) -> bool {
        Instant::now() > self.end
    }
}

/// Takes the ticks first to last out of the trace; what comes after moves to the front.
fn remove_ticks(trace: &mut Trace, first: u64, last: u64) {
    let gone = |tick: u32| (first..=last).contains(&(tick as u64));
    let moved = |tick: u32| if tick as u64 > last { tick - (last - first + 1) as u32 } else { tick };
    trace.samples.retain(|s| !gone(s.tick));
    trace.samples.iter_mut().for_each(|s| s.tick = moved(s.tick));
    trace.replies.retain(|r| !gone(r.tick));
    trace.replies.iter_mut().for_each(|r| r.tick = moved(r.tick));
    trace.holes.retain(|h| !(gone(h.first) && gone(h.last)));
    for hole in &mut trace.holes {
        let start = if gone(hole.first) { first as u32 } else { moved(hole.first) };
        let end = if gone(hole.last) { (first as u32).wrapping_sub(1) } else { moved(hole.last) };
        *hole = Hole { first: start, last: end };
    }
}

fn tick_count(trace: &Trace) -> u64 {
    let after_holes = trace.holes.last().map_or(0, |h| h.last as u64 + 1);
    trace.samples.last().map_or(after_holes, |s| after_holes.max(s.tick as u64 + 1))
}

/// Ticks at which a part of the trace may be taken out.
fn starts(trace: &Trace) -> Vec<u64> {
    let mut out = vec![0];
    for hole in trace.holes.iter().take(60) {
        out.extend([hole.first as u64, hole.first as u64 + 1, hole.last as u64 + 1]);
    }
    out
}

fn shorter(search: &mut Search, trace: &Trace) -> bool {
    let ticks = tick_count(trace);
    let mut length = ticks;
    while length > 0 {
        let mut starts = starts(trace);
        starts.extend(trace.samples.iter().map(|s| s.tick as u64).filter(|t| t % (length / 4).max(1) == 0));
        starts.retain(|start| start + length <= ticks);
        for start in starts {
            if search.change(trace, &|t| remove_ticks(t, start, start + length - 1)) {
                return true;
            }
        }
        length -= (length / 2).max(1);
    }
    false
}

/// A smaller time together with as many ticks fewer.
fn sooner(search: &mut Search, trace: &Trace) -> bool {
    let ticks = tick_count(trace);
    for no in 0..16 {
        let time = trace.rules[no].time;
        for less in [time.saturating_sub(1), time / 2, time / 4, 1] {
            for length in [less as u64, 2 * less as u64] {
                for start in starts(trace) {
                    let fits = less != 0 && less < time && start + length <= ticks;
                    let next = |t: &mut Trace| {
                        t.rules[no].time -= less;
                        remove_ticks(t, start, start + length - 1);
                    };
                    if fits && search.change(trace, &next) {
                        return true;
                    }
                }
            }
        }
    }
    false
}

fn fewer_replies(search: &mut Search, trace: &Trace) -> bool {
    let mut length = trace.replies.len();
    while length > 0 {
        for start in (0..=trace.replies.len() - length).step_by(length) {
            if search.change(trace, &|t| drop(t.replies.drain(start..start + length))) {
                return true;
            }
        }
        length /= 2;
    }
    false
}

fn fewer_records(search: &mut Search, trace: &Trace) -> bool {
    search.change(trace, &|t| t.samples.clear())
        || search.change(trace, &|t| t.holes.clear())
        || (0..trace.samples.len().min(60)).any(|i| search.change(trace, &|t| drop(t.samples.remove(i))))
        || (0..trace.holes.len().min(60)).any(|i| search.change(trace, &|t| drop(t.holes.drain(i..=i))))
}

/// A hole that also takes the place of the samples before it, or a hole joined with the one before.
fn wider_holes(search: &mut Search, trace: &Trace) -> bool {
    let holes = &trace.holes;
    for i in 0..holes.len().min(60) {
        let start = if i == 0 { 0 } else { holes[i - 1].last.wrapping_add(1) };
        let before = |t: &mut Trace| {
            t.holes[i].first = start;
            t.samples.retain(|s| s.tick < start || s.tick > holes[i].last);
        };
        let joined = |t: &mut Trace| {
            t.holes[i - 1].last = holes[i].last;
            t.holes.remove(i);
            t.samples.retain(|s| s.tick < holes[i - 1].first || s.tick > holes[i].last);
        };
        if search.change(trace, &before) || i > 0 && search.change(trace, &joined) {
            return true;
        }
    }
    false
}

fn fewer_cells(search: &mut Search, trace: &Trace) -> bool {
    (3..trace.cells.min(12)).any(|cells| {
        search.change(trace, &|t| {
            t.cells = cells;
            t.samples.iter_mut().for_each(|s| s.volts.truncate(cells as usize));
            t.samples.iter_mut().for_each(|s| s.temps.truncate(cells as usize));
        })
    })
}

fn simpler_rules(search: &mut Search, trace: &Trace) -> bool {
    (0..16).any(|no| {
        let rule = trace.rules[no];
        let simpler = [
            RULE_OFF,
            Rule { time: rule.time / 2, ..rule },
            Rule { time: rule.time.saturating_sub(1), ..rule },
            Rule { threshold: 0, recovery: 0, ..rule },
            Rule { threshold: 0, ..rule },
            Rule { recovery: 0, ..rule },
            Rule { threshold: rule.threshold / 2, recovery: rule.recovery / 2, ..rule },
        ];
        simpler.iter().any(|next| search.change(trace, &|t| t.rules[no] = *next))
    })
}

fn simpler_samples(search: &mut Search, trace: &Trace) -> bool {
    let zero: [fn(&mut Sample); 4] = [
        |s| s.current = 0,
        |s| s.board = 0,
        |s| s.volts.iter_mut().for_each(|v| *v = 0),
        |s| s.temps.iter_mut().for_each(|t| *t = 0),
    ];
    search.change(trace, &|t| t.idle = 0)
        || zero.iter().any(|zero| search.change(trace, &|t| t.samples.iter_mut().for_each(zero)))
        || (0..trace.samples.len().min(40))
            .any(|i| zero.iter().any(|zero| search.change(trace, &|t| zero(&mut t.samples[i]))))
}

fn simpler_replies(search: &mut Search, trace: &Trace) -> bool {
    (0..trace.replies.len().min(20)).any(|i| {
        let tick = trace.replies[i].tick;
        search.change(trace, &|t| t.replies[i].tick = tick / 2)
            || search.change(trace, &|t| t.replies[i].tick = tick.saturating_sub(1))
    })
}

fn fewer_bytes(search: &mut Search) -> bool {
    let bytes = search.best.clone();
    let lengths = [0, bytes.len() / 2, bytes.len() * 7 / 8, bytes.len().max(1) - 1];
    if lengths.iter().any(|length| search.attempt(bytes[..*length].to_vec())) {
        return true;
    }
    (0..bytes.len().min(400)).filter(|at| bytes[*at] != 0).any(|at| {
        let mut next = bytes.clone();
        next[at] = 0;
        search.attempt(next)
    })
}

/// One simplification of the best trace, if any is found.
fn improve(search: &mut Search) -> bool {
    let steps = [
        fewer_replies,
        simpler_rules,
        shorter,
        sooner,
        wider_holes,
        fewer_cells,
        fewer_records,
        simpler_samples,
        simpler_replies,
    ];
    let trace = read(&search.best);
    let done = trace.map_or(false, |trace| steps.iter().any(|step| step(search, &trace)));
    done || fewer_bytes(search)
}

/// The smallest trace found within half a minute for which `differs` still holds.
pub fn shrink(bytes: &[u8], differs: &dyn Fn(&[u8]) -> bool) -> Vec<u8> {
    let end = Instant::now() + Duration::from_secs(30);
    let mut search = Search { best: bytes.to_vec(), differs, end };
    while !search.over() && improve(&mut search) {}
    search.best
}
