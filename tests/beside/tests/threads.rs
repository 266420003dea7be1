//! Calls from several threads at once, each with its own buffers, answer as calls alone do.
#![cfg(feature = "proved")]

use beside::admitted::{Admission, Guest};
use beside::composed::{Lent, Sizes};
use beside::proved::{self, PROVED};
use beside::{Checker, Written};
use generate::damage::{damaged, Files};
use generate::guests::two_guests;
use generate::pairs::Scale;
use generate::random::Random;
use reference::admission::{MOST_FRAME, RECORD_NUMBERS};
use reference::view::NODE;
use reference::{Verdict, TABLE_WORDS};
use std::sync::Barrier;

const THREADS: usize = 8;
const GUESTS: usize = 50;
const ROUNDS: usize = 5;

/// What a host gets from all calls for a pair.
#[derive(PartialEq)]
struct Answer {
    verdict: Verdict,
    states: Option<u64>,
    words: Vec<u64>,
    root: u64,
    view: u64,
    written: Option<Written>,
    form: Vec<u8>,
    composed: Option<u64>,
    rooms: [Vec<u8>; 2],
    frames: Frames,
}

/// The answers of two admissions and of the release of the first, with the record after each.
type Frames = [(Option<Admission>, Vec<u32>); 3];

/// All calls, over the words that an earlier call has left. The view is that of node 0. The room
/// for the form is that of the file. The pair is composed with the second one.
fn answer((handler, proof): &Files, second: &Files, work: &mut [u64]) -> Answer {
    let verdict = PROVED.check(handler, proof, work);
    let states = PROVED.states(handler, proof, work);
    let root = proved::root(handler, proof);
    let view = proved::view(handler, proof, 30, NODE, 0);
    let mut form = vec![0xA7; proof.len()];
    let written = PROVED.canonical(handler, proof, &mut form);
    let words = work.to_vec();
    let mut rooms = [Sizes::AMPLE.handler, Sizes::AMPLE.proof].map(|length| vec![0xA7; length]);
    let [handler_room, proof_room] = &mut rooms;
    let pairs = [(&handler[..], &proof[..]), (&second.0, &second.1)];
    let mut lent = Lent { work, handler: handler_room, proof: proof_room };
    let composed = PROVED.compose(pairs, &mut lent);
    let frames = frames(pairs, work);
    Answer { verdict, states, words, root, view, written, form, composed, rooms, frames }
}

/// Both pairs in one frame, and then the second alone.
fn frames([first, second]: [(&[u8], &[u8]); 2], work: &mut [u64]) -> Frames {
    let mut record = vec![0; RECORD_NUMBERS];
    record[0] = MOST_FRAME;
    let guest = |place, files| Guest { place, files, ticks: 3 };
    let one = (PROVED.admit(&mut record, guest(9, first), work), record.clone());
    let two = (PROVED.admit(&mut record, guest(0, second), work), record.clone());
    [one, two, (PROVED.release(&mut record, 9), record)]
}

/// Two guests, one after the other, and four damaged versions of each.
fn pairs() -> Vec<Files> {
    let mut random = Random::new(0x7472);
    let mut pairs = Vec::new();
    for _ in 0..GUESTS {
        let guests = two_guests(&mut random, Scale::FULL);
        for pair in &guests {
            pairs.extend((0..4).map(|_| damaged(&mut random, pair)));
        }
        pairs.extend(guests.map(|pair| (pair.handler_file.bytes, pair.proof_file.bytes)));
    }
    pairs
}

/// The answers for a pair of the list, which is composed with the one after it.
fn answer_at(pairs: &[Files], index: usize, work: &mut [u64]) -> Answer {
    answer(&pairs[index], &pairs[(index + 1) % pairs.len()], work)
}

/// Whether both files of a composition were written.
fn is_made(answer: &Answer) -> bool {
    answer.composed.is_some_and(|number| number >> 63 == 0)
}

/// Whether both pairs were admitted.
fn are_admitted(answer: &Answer) -> bool {
    answer.frames.iter().all(|(admission, _)| *admission == Some(Ok(())))
}

/// Every thread goes over all pairs, each from a place of its own on, and shares the files.
#[test]
fn threads_do_not_disturb_each_other() {
    let pairs = pairs();
    let mut work = vec![0; TABLE_WORDS];
    let alone: Vec<Answer> =
        (0..pairs.len()).map(|index| answer_at(&pairs, index, &mut work)).collect();
    let accepted = alone.iter().filter(|a| matches!(a.verdict, Verdict::Accepted(_))).count();
    assert!(accepted >= 2 * GUESTS && accepted < alone.len(), "{accepted} accepted");
    let made = alone.iter().filter(|answer| is_made(answer)).count();
    assert!(made > GUESTS / 2, "only {made} were composed");
    let admitted = alone.iter().filter(|answer| are_admitted(answer)).count();
    assert!(admitted > GUESTS / 2, "only {admitted} were admitted");
    let start = Barrier::new(THREADS);
    std::thread::scope(|scope| {
        for thread in 0..THREADS {
            let (pairs, alone, start) = (&pairs, &alone, &start);
            scope.spawn(move || {
                let mut work = vec![thread as u64; TABLE_WORDS];
                start.wait();
                for turn in 0..ROUNDS * pairs.len() {
                    let index = (turn + thread * pairs.len() / THREADS) % pairs.len();
                    let found = answer_at(pairs, index, &mut work);
                    assert!(found == alone[index], "thread {thread}, pair {index}");
                }
            });
        }
    });
}
