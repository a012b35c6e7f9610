// The live feed: the story of tests/c_library.sh, the limits of each call, and states that are none.
use buttmitrel::{check, rule_bytes, seal, Check, Flag, LiveFeed, Refused, Rule};

const COV: Rule = Rule { threshold: 4_200, recovery: 4_100, time: 3 };

fn over_voltage() -> [u8; 160] {
    let mut rules = [Rule::OFF; 16];
    rules[0] = COV;
    rule_bytes(&rules)
}

fn refused(number: u32, place: u32) -> Refused {
    Refused { number, place }
}

fn take(feed: &mut LiveFeed, tick: u32, highest: u16) -> Result<(), Refused> {
    feed.sample(tick, 1_500, 300, &[highest, 4_140, 4_130], &[250; 3])
}

// Two seconds over the threshold, a hole of three, then 4,150 mV: states 0 and 3 are possible.
fn story() -> LiveFeed {
    let mut feed = LiveFeed::begin(3, 100, &over_voltage()).unwrap();
    for (tick, highest) in [(0, 4_150), (1, 4_250), (2, 4_250)] {
        take(&mut feed, tick, highest).unwrap();
    }
    feed
}

#[test]
fn a_hole_over_the_threshold() {
    let mut feed = story();
    let rule = feed.report().rules[0];
    assert_eq!((rule.alert, rule.status), (Flag::Held, Flag::Clear));
    assert!(feed.possible_states(0).eq([2]));
    feed.hole(5).unwrap();
    take(&mut feed, 6, 4_150).unwrap();
    let report = feed.report();
    assert_eq!((report.rules[0].alert, report.rules[0].status), (Flag::Unknown, Flag::Unknown));
    assert!(feed.possible_states(0).eq([0, 3]));
    assert!(feed.possible_states(15).eq([0]));
    assert!(feed.possible_states(16).eq([]));
    assert_eq!((report.outputs.charge_mosfet_open, report.outputs.discharge_mosfet_open), (Flag::Unknown, Flag::Clear));
    assert_eq!((report.totals.charge_in_mas, report.totals.unseen_ticks, report.totals.ticks), (6_000, 3, 7));
    assert_eq!(feed.totals(), &[6_000, 0, 3, 7]);
    assert_eq!(feed.expected_tick(), 7);
}

#[test]
fn refused_beginnings() {
    let long = [0; 161];
    for (cells, idle, rules, number) in [(2, 32_767, &long[..], 3), (13, 0, &long, 3), (3, 32_767, &long, 4), (3, 0, &long, 6)] {
        assert_eq!(LiveFeed::begin(cells, idle, rules), Err(refused(number, 0)));
    }
    let mut rules = [COV; 16];
    rules[4] = Rule { threshold: 1, recovery: 2, time: 1 };
    assert_eq!(LiveFeed::begin(3, 0, &rule_bytes(&rules)), Err(refused(7, 1)));
}

// 15 comes before 9; a refused call leaves the feed as it was.
#[test]
fn refused_samples_and_holes() {
    let mut feed = story();
    let before = feed.clone();
    assert_eq!(feed.sample(9, 0, 0, &[4_000; 2], &[250; 3]), Err(refused(15, 0)));
    assert_eq!(feed.sample(3, 0, 0, &[4_000; 3], &[]), Err(refused(15, 0)));
    assert_eq!(take(&mut feed, 2, 4_000), Err(refused(9, 3)));
    assert_eq!(take(&mut feed, 4, 4_000), Err(refused(9, 3)));
    assert_eq!(feed.hole(2), Err(refused(8, 3)));
    assert_eq!(feed.hole(u32::MAX), Err(refused(8, 3)));
    assert_eq!(feed, before);
    feed.hole(u32::MAX - 1).unwrap();
    assert_eq!(take(&mut feed, u32::MAX, 4_000), Err(refused(9, u32::MAX)));
}

#[test]
fn states_that_are_none() {
    let feed = story();
    let (words, totals, rules) = (*feed.words(), *feed.totals(), over_voltage());
    let resume = |cells, idle, rules: &[u8], words: &[u64], totals: &[u64]| LiveFeed::resume(cells, idle, rules, words, totals);
    assert_eq!(resume(3, 100, &rules, &words, &totals), Ok(feed));
    let none = Err(refused(16, 0));
    assert_eq!(resume(2, 100, &rules, &words, &totals), none);
    assert_eq!(resume(3, 32_767, &rules, &words, &totals), none);
    assert_eq!(resume(3, 100, &rules[..150], &words, &totals), none);
    assert_eq!(resume(3, 100, &rules, &words[..79], &totals), none);
    assert_eq!(resume(3, 100, &rules, &words, &totals[..3]), none);
    let mut above = words;
    above[0] |= 1 << 4;
    assert_eq!(resume(3, 100, &rules, &above, &totals), none);
    assert_eq!(resume(3, 100, &rules, &[0; 80], &totals), none);
    for wrong in [[98_305, 0, 0, 3], [0, 98_305, 0, 3], [0, 0, 4, 3], [0, 0, 0, 1 << 32]] {
        assert_eq!(resume(3, 100, &rules, &words, &wrong), none);
    }
    assert!(resume(3, 100, &rules, &words, &[98_304, 98_304, 3, 3]).is_ok());
}

// The code of the empty word of BatteryStatus is DEh (docs/FORMAT.md).
#[test]
fn replies() {
    assert_eq!(seal(0x16, 0), [0x16, 0x16, 0x17, 0, 0, 0xDE]);
    for word in (0..=u16::MAX).step_by(257) {
        assert_eq!(check(&seal(word as u8, word)), Ok(Check::Whole));
    }
    assert_eq!(check(&[0x16, 0x16, 0x16, 0, 0, 0xDE]), Ok(Check::WrongAddress));
    assert_eq!(check(&[0x16, 0x16, 0x17, 1, 0, 0xDE]), Ok(Check::WrongPec));
    assert_eq!(check(&[0; 7]), Err(refused(15, 0)));
}

#[test]
fn refusals_in_words() {
    let shown = refused(9, 5).to_string();
    let meaning = "a tick is covered by no record or by two, has already passed, or is 4294967295; the place is the tick that is expected";
    assert_eq!(shown, format!("refused 9 at 5: {meaning}"));
    let mut meanings: Vec<&str> = (1..=17).map(|number| refused(number, 0).meaning()).collect();
    meanings.push(refused(18, 0).meaning());
    meanings.sort();
    meanings.dedup();
    assert_eq!(meanings.len(), 18);
    let error: Box<dyn std::error::Error + Send + Sync> = refused(9, 5).into();
    assert_eq!(error.to_string(), shown);
}
