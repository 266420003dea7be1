//! Admission to a frame and release from it, by every checker of the build.

use crate::composed::Files;
use crate::{at_bit, checkers, lawful, lent, mark, Checker, SPARE_WORDS};
use reference::admission::{
    NO_ROOM, NO_SUCH_PLACE, PLACE_TAKEN, RECORD_ILL_FORMED, TICKS_OUT_OF_RANGE,
};
use reference::{Verdict, TABLE_WORDS};

/// Done, or why not.
pub type Admission = Result<(), Verdict>;

/// A guest that is to be admitted.
#[derive(Clone, Copy, Debug)]
pub struct Guest<'a> {
    pub place: u32,
    pub files: Files<'a>,
    pub ticks: u32,
}

/// A call on a record.
#[derive(Clone, Copy, Debug)]
pub enum Call<'a> {
    /// An admission with so many work words.
    Admit(Guest<'a>, usize),
    Release(u32),
}

impl Call<'_> {
    fn words(&self) -> usize {
        match self {
            Call::Admit(_, words) => *words,
            Call::Release(_) => 0,
        }
    }

    /// Makes the call; none where the checker cannot.
    fn by(&self, checker: &dyn Checker, memory: &mut Memory) -> Option<Admission> {
        let (record, work) = memory.lend();
        match *self {
            Call::Admit(Guest { place, files: (handler, proof), ticks }, _) => {
                lent(handler, proof, |handler, proof| {
                    checker.admit(record, Guest { place, files: (handler, proof), ticks }, work)
                })
            }
            Call::Release(place) => checker.release(record, place),
        }
    }
}

/// A refusal that is not the check's.
pub fn refused(number: u32) -> Admission {
    Err(at_bit(number, 0))
}

/// The admission of a guest with the table words and a few more.
pub fn judge_admit(record: &mut [u32], guest: Guest) -> Admission {
    judge_call(record, Call::Admit(guest, TABLE_WORDS + SPARE_WORDS))
}

pub fn judge_release(record: &mut [u32], place: u32) -> Admission {
    judge_call(record, Call::Release(place))
}

/// One call by every checker, which leaves the record as they do. Panics where one breaks what
/// holds of every call, where one differs from the reference in the answer, in a number of the
/// record or in a word, or where anything else has changed.
pub fn judge_call(record: &mut [u32], call: Call) -> Admission {
    let before = Memory::marked(record, call.words());
    let mut known: Option<(Admission, Memory)> = None;
    for checker in checkers() {
        let mut memory = before.clone();
        let Some(answer) = call.by(&*checker, &mut memory) else { continue };
        let what = || format!("{} {call:02X?} on {record:?}", checker.name());
        if let Err(why) = may_end_so(call, &before, answer, &memory) {
            panic!("{why}: {answer:?} {}", what());
        }
        let (expected, after) = known.get_or_insert_with(|| (answer, memory.clone()));
        assert_eq!(answer, *expected, "{}", what());
        assert!(memory.record == after.record, "record {:?}: {}", memory.record, what());
        assert!(memory.work == after.work, "work words: {}", what());
    }
    let (answer, mut memory) = known.expect("the reference answers");
    record.copy_from_slice(memory.lend().0);
    answer
}

/// The record and the work words of a call with what is next to them.
#[derive(Clone)]
struct Memory {
    record: Vec<u32>,
    work: Vec<u64>,
}

/// The numbers on either side of the record that is lent.
const MARGIN: [u32; 8] = [0x5C5C_5C5C; 8];

impl Memory {
    /// No work word is 0.
    fn marked(record: &[u32], words: usize) -> Memory {
        let words = words + 2 * SPARE_WORDS;
        Memory {
            record: [&MARGIN, record, &MARGIN].concat(),
            work: (0..words as u64).map(mark).collect(),
        }
    }

    fn lend(&mut self) -> (&mut [u32], &mut [u64]) {
        let (numbers, words) = (self.record.len() - MARGIN.len(), self.work.len() - SPARE_WORDS);
        (&mut self.record[MARGIN.len()..numbers], &mut self.work[SPARE_WORDS..words])
    }

    /// What is next to the record and to the work words.
    fn margins(&self) -> ([&[u32]; 2], [&[u64]; 2]) {
        let (numbers, words) = (self.record.len() - MARGIN.len(), self.work.len() - SPARE_WORDS);
        let of_record = [&self.record[..MARGIN.len()], &self.record[numbers..]];
        (of_record, [&self.work[..SPARE_WORDS], &self.work[words..]])
    }
}

/// Whether a call may end so, with the reason where it may not.
fn may_end_so(
    call: Call,
    before: &Memory,
    answer: Admission,
    after: &Memory,
) -> Result<(), String> {
    if after.margins() != before.margins() {
        return Err("something next to what is lent has changed".into());
    }
    if answer.is_err() && after.record != before.record {
        return Err("a refusal changed the record".into());
    }
    let Call::Admit(Guest { files: (handler, proof), .. }, words) = call else { return Ok(()) };
    let [before, after] =
        [before, after].map(|memory| &memory.work[SPARE_WORDS..SPARE_WORDS + words]);
    match checked(answer) {
        Some(verdict) => lawful::call(handler, proof, before, verdict, after),
        None if after != before => Err("words have changed without a check".into()),
        None => Ok(()),
    }
}

/// What the check has said of the files, but for the step number; none where it was not reached.
fn checked(answer: Admission) -> Option<Verdict> {
    const FIRST: [u32; 4] = [NO_SUCH_PLACE, PLACE_TAKEN, RECORD_ILL_FORMED, TICKS_OUT_OF_RANGE];
    match answer {
        Ok(()) | Err(Verdict::Refused { number: NO_ROOM, .. }) => Some(Verdict::Accepted(0)),
        Err(Verdict::Refused { number, .. }) if FIRST.contains(&number) => None,
        Err(verdict) => Some(verdict),
    }
}
