//! Records that are none, made from good ones, and what calls on them must answer.

use super::record_of;
use beside::admitted::{refused, Admission};
use generate::random::Random;
use reference::admission::{MOST_FRAME, PLACES, RECORD_NUMBERS};

/// What is wrong with a record.
#[derive(Clone, Copy, PartialEq, Eq, PartialOrd, Ord, Debug)]
pub enum Wrong {
    Frame,
    Count,
    PlaceOver,
    PlaceTwice,
    First,
    Length,
    PastFrame,
    Wrapped,
    Numbers,
}

impl Wrong {
    pub const ALL: [Wrong; 9] = [
        Wrong::Frame,
        Wrong::Count,
        Wrong::PlaceOver,
        Wrong::PlaceTwice,
        Wrong::First,
        Wrong::Length,
        Wrong::PastFrame,
        Wrong::Wrapped,
        Wrong::Numbers,
    ];
}

/// A record with some guests, at least two, in which this is wrong.
pub fn record(random: &mut Random, wrong: Wrong) -> Vec<u32> {
    let mut places: Vec<u32> = (0..PLACES as u32).collect();
    random.shuffle(&mut places);
    places.truncate(random.between(2, PLACES));
    let guests: Vec<(u32, u32)> =
        places.iter().map(|place| (*place, random.below(1_000) as u32)).collect();
    let needs: u32 = guests.iter().map(|(_, need)| need).sum();
    let frame = random.between(needs.max(1) as usize, MOST_FRAME as usize) as u32;
    let mut record = record_of(frame, &guests).to_vec();
    let slot = random.below(guests.len());
    spoil(random, &mut record, wrong, slot, guests.len());
    record
}

/// The numbers of a slot.
fn of_slot(record: &mut [u32], slot: usize) -> &mut [u32] {
    &mut record[2 + 3 * slot..][..3]
}

fn spoil(random: &mut Random, record: &mut Vec<u32>, wrong: Wrong, slot: usize, count: usize) {
    let any = random.word() as u32;
    let last = count - 1;
    match wrong {
        Wrong::Frame => record[0] = *random.pick(&[0, MOST_FRAME + 1, any.max(MOST_FRAME + 1)]),
        Wrong::Count => record[1] = *random.pick(&[17, 18, any.max(17), u32::MAX]),
        Wrong::PlaceOver => of_slot(record, slot)[0] = *random.pick(&[16, 17, any.max(16)]),
        Wrong::PlaceTwice => {
            let other = (slot + random.between(1, last)) % count;
            of_slot(record, slot)[0] = of_slot(record, other)[0];
        }
        Wrong::First => {
            let more = *random.pick(&[1, u32::MAX, any.max(1)]);
            let first = &mut of_slot(record, slot)[1];
            *first = first.wrapping_add(more);
        }
        Wrong::Length => {
            // The next one no longer begins where this one ends.
            let more = *random.pick(&[1, u32::MAX, any.max(1)]);
            let length = &mut of_slot(record, slot.min(last - 1))[2];
            *length = length.wrapping_add(more);
        }
        Wrong::PastFrame => {
            let over = record[0] - of_slot(record, last)[1] + 1;
            of_slot(record, last)[2] = *random.pick(&[over, over.max(any), u32::MAX]);
        }
        Wrong::Wrapped => wrap(record, last),
        Wrong::Numbers => {
            // A count over 16 has no more slots than 16, however long the record is.
            record[1] = *random.pick(&[count as u32, 17, u32::MAX]);
            let lengths = [random.below(RECORD_NUMBERS), random.between(51, 60)];
            record.resize(*random.pick(&lengths), any % 16);
        }
    }
}

/// The last two slots are end to end and together 2^32 ticks longer than the last one was.
fn wrap(record: &mut [u32], last: usize) {
    let before = of_slot(record, last - 1)[1];
    let end = of_slot(record, last)[1] + of_slot(record, last)[2];
    of_slot(record, last - 1)[2] = u32::MAX - before;
    of_slot(record, last)[1] = u32::MAX;
    of_slot(record, last)[2] = end + 1;
}

/// What a call on a record that is none must answer: 101 goes before 102.
pub fn foretold(record: &[u32], place: u32, admits: bool) -> Admission {
    if place > 15 {
        return refused(100);
    }
    let count = record.get(1).copied().unwrap_or(0);
    let in_full = |index: &usize| 4 + 3 * index < record.len();
    let mut slots = (0..16).filter(in_full).filter(|index| (*index as u32) < count);
    let taken = slots.any(|index| record[2 + 3 * index] == place);
    refused(if taken == admits { 101 } else { 102 })
}
