//! Sequences of admissions and releases, from bare frames and from records that are none.
//!
//! After every call all checkers agree. From a bare frame the answer is what the history of the
//! calls says, and the record is the layout of the guests that are present.
//!
//! `HANDOVER_SEQUENCES` asks for more than the default, `HANDOVER_SEED` for others.

use super::history::History;
use super::ill_formed::{foretold, record, Wrong};
use super::pool::{Entry, Pool};
use super::tally::{Event, Tally};
use super::{bare, Record};
use beside::admitted::{judge_call, refused, Admission, Call, Guest};
use beside::{at_bit, setting, SPARE_WORDS};
use generate::damage::Files;
use generate::random::Random;
use reference::admission::{MOST_FRAME, MOST_TICKS, PLACES};
use reference::{Verdict, LONGEST_FILE, TABLE_WORDS};

#[test]
fn sequences_of_calls() {
    let wanted = setting("HANDOVER_SEQUENCES", 50_000) as usize;
    let mut random = Random::new(setting("HANDOVER_SEED", 0xAD31));
    let pool = Pool::new(&mut random);
    let mut tally = Tally::default();
    while tally.sequences < wanted {
        if random.chance(80) {
            from_a_bare_frame(&mut random, &pool, &mut tally);
        } else {
            from_no_record(&mut random, &pool, &mut tally);
        }
        tally.sequences += 1;
    }
    tally.print();
    tally.often_enough();
}

/// What an admission is asked for with: the guest's place and ticks, files and work words, and what
/// the check must say of these.
struct Asked {
    place: u32,
    ticks: u32,
    files: Files,
    words: usize,
    verdict: Verdict,
}

impl Asked {
    /// With the files of a pair; at times with too few words or too long a file.
    fn new(random: &mut Random, place: u32, ticks: u32, entry: &Entry) -> Asked {
        let Entry { mut files, mut verdict } = entry.clone();
        let mut words = TABLE_WORDS + random.below(SPARE_WORDS);
        if random.chance(4) {
            let longer = LONGEST_FILE + random.between(1, 9);
            let file = if random.chance(50) { &mut files.0 } else { &mut files.1 };
            file.resize(longer, 0);
            verdict = at_bit(2, 0);
        }
        if random.chance(4) {
            let some = random.below(TABLE_WORDS);
            words = *random.pick(&[0, TABLE_WORDS - 1, some]);
            verdict = at_bit(1, 0);
        }
        Asked { place, ticks, files, words, verdict }
    }

    fn judged(&self, record: &mut [u32]) -> Admission {
        let Asked { place, ticks, files: (handler, proof), words, .. } = self;
        let guest = Guest { place: *place, files: (handler, proof), ticks: *ticks };
        judge_call(record, Call::Admit(guest, *words))
    }
}

/// How a sequence goes: the frame, how many calls there are, and of 100 how many are releases, and
/// admissions that are to fill the frame.
struct Style {
    frame: u32,
    calls: usize,
    releases: usize,
    fillers: usize,
}

impl Style {
    fn some(random: &mut Random) -> Style {
        let most = *random.pick(&[1, 10, 100, 10_000, MOST_FRAME as usize]);
        let some = random.between(1, most);
        let frame = *random.pick(&[some, most, MOST_FRAME as usize]) as u32;
        Style { frame, calls: random.between(1, 20), releases: 25, fillers: 20 }
    }

    /// Such that most places are taken.
    fn crowded(random: &mut Random) -> Style {
        Style { frame: MOST_FRAME, calls: random.between(30, 60), releases: 10, fillers: 2 }
    }
}

/// Calls on a frame that was bare, half of them with something past its count.
fn from_a_bare_frame(random: &mut Random, pool: &Pool, tally: &mut Tally) {
    let style = if random.chance(5) { Style::crowded(random) } else { Style::some(random) };
    let mut history = History::new(style.frame);
    let mut record = bare(history.frame);
    let mut clean = random.chance(50);
    if !clean {
        record[2..].iter_mut().for_each(|number| *number = random.word() as u32 % 20);
    }
    for _ in 0..style.calls {
        let answer = if random.chance(style.releases) {
            one_release(random, &mut history, &mut record, tally)
        } else {
            let asked = some_asked(random, pool, &history, style.fillers);
            one_admission(&asked, &mut history, &mut record, tally)
        };
        clean |= answer.is_ok();
        history.hold(&record);
        if clean {
            history.hold_clean(&record);
        }
    }
}

/// Mostly a place that there is.
fn some_place(random: &mut Random) -> u32 {
    let over = [16, 17, 31, 256, 65_536 + 3, u32::MAX, random.word() as u32 | 1 << 8];
    if random.chance(10) {
        *random.pick(&over)
    } else {
        random.below(PLACES) as u32
    }
}

/// Mostly ticks that may be.
fn some_ticks(random: &mut Random) -> u32 {
    let any = random.word() as u32;
    match random.below(10) {
        0 => *random.pick(&[0, MOST_TICKS + 1, 65_536 + 1, u32::MAX, any.max(MOST_TICKS + 1)]),
        1..=5 => 1 + any % 4,
        _ => *random.pick(&[1 + any % MOST_TICKS, MOST_TICKS]),
    }
}

/// Mostly a place that is free, if there is one.
fn place_to_take(random: &mut Random, history: &History) -> u32 {
    let free: Vec<u32> = (0..PLACES as u32).filter(|place| !history.has(*place)).collect();
    if free.is_empty() || random.chance(20) {
        some_place(random)
    } else {
        *random.pick(&free)
    }
}

/// A pair of any kind, or one with ticks by which the frame is just full or a tick is missing.
fn some_asked(random: &mut Random, pool: &Pool, history: &History, fillers: usize) -> Asked {
    let (place, ticks) = (place_to_take(random, history), some_ticks(random));
    if random.chance(fillers) {
        let need = history.left() + random.below(2) as u64;
        if let Some((entry, ticks)) = pool.of_need(random, need) {
            return Asked::new(random, place, ticks, entry);
        }
    }
    let entry = match random.chance(75) {
        true => random.pick(&pool.accepted),
        false => pool.refused(random),
    };
    Asked::new(random, place, ticks, entry)
}

fn one_admission(
    asked: &Asked,
    history: &mut History,
    record: &mut Record,
    tally: &mut Tally,
) -> Admission {
    let left = history.left();
    let answer = asked.judged(record);
    let foretold = history.admit(asked.place, asked.ticks, asked.verdict);
    assert_eq!(answer, foretold, "{record:?}");
    tally.add(true, answer);
    let Verdict::Accepted(steps) = asked.verdict else { return answer };
    let need = u64::from(steps) * u64::from(asked.ticks);
    let (done, no_room) = (answer.is_ok(), answer == refused(103));
    let events = [
        (done, Event::Admitted),
        (done && need == 0, Event::EmptySlot),
        (done && need > 0 && need == left, Event::FrameFilled),
        (done && history.present.len() == PLACES, Event::LastPlaceTaken),
        (no_room && need == left + 1, Event::OneTickTooMany),
    ];
    events.iter().filter(|(met, _)| *met).for_each(|(_, event)| tally.event(*event));
    answer
}

fn one_release(
    random: &mut Random,
    history: &mut History,
    record: &mut Record,
    tally: &mut Tally,
) -> Admission {
    let place = match random.chance(80) && !history.present.is_empty() {
        true => random.pick(&history.present).0,
        false => some_place(random),
    };
    let index = history.present.iter().position(|(taken, _)| *taken == place);
    let before = history.present.len();
    let answer = judge_call(record, Call::Release(place));
    assert_eq!(answer, history.release(place), "{record:?}");
    tally.add(false, answer);
    if let Some(index) = index {
        tally.event(match index {
            _ if before == 1 => Event::ReleasedOnly,
            0 => Event::ReleasedFirst,
            _ if index == before - 1 => Event::ReleasedLast,
            _ => Event::ReleasedBetween,
        });
    }
    answer
}

/// Calls on a record that is none: all are refused, and it stays as it is.
fn from_no_record(random: &mut Random, pool: &Pool, tally: &mut Tally) {
    let wrong = *random.pick(&Wrong::ALL);
    let mut record = record(random, wrong);
    let before = record.clone();
    for _ in 0..random.between(1, 8) {
        let admits = random.chance(60);
        let place = some_place(random);
        let answer = if admits {
            let ticks = some_ticks(random);
            let entry = random.pick(&pool.accepted);
            Asked::new(random, place, ticks, entry).judged(&mut record)
        } else {
            judge_call(&mut record, Call::Release(place))
        };
        assert_eq!(answer, foretold(&before, place, admits), "{wrong:?} {before:?}");
        assert_eq!(record, before);
        tally.add(admits, answer);
        if answer == refused(102) {
            tally.wrong(wrong);
        }
    }
}
