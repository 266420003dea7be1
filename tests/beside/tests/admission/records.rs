//! Records that are none: each way to be so, each length, and what is past the count.

use super::{admit_one, bare, record_of, Record};
use beside::admitted::refused;
use beside::judge_release;
use reference::admission::{PLACES, RECORD_NUMBERS};

/// Three guests with 10, 20 and 30 ticks in a frame of 100.
const GUESTS: [(u32, u32); 3] = [(5, 10), (0, 20), (9, 30)];

/// The record of the three guests with one number changed.
fn with(index: usize, number: u32) -> Record {
    let mut record = record_of(100, &GUESTS);
    record[index] = number;
    record
}

/// No guest is admitted, and none is released.
fn is_none(mut record: Record, taken: u32) {
    assert_eq!(admit_one(&mut record, 15, 1), refused(102), "{record:?}");
    assert_eq!(judge_release(&mut record, taken), refused(102), "{record:?}");
}

#[test]
fn one_number_changed() {
    // The frame: none, over the most, and too short for the guests.
    for frame in [0, 1_000_001, u32::MAX, 59, 1] {
        is_none(with(0, frame), 5);
    }
    for count in [17, 18, 255, 256 + 3, 65_536 + 3, u32::MAX] {
        is_none(with(1, count), 5);
    }
    // A place over 15, and a place twice.
    for place in [16, 17, 255, 256, 65_536, u32::MAX, 0, 5] {
        is_none(with(8, place), 5);
    }
    // The first slot does not begin at 0, or another not where the one before it ends.
    for (index, old) in [(3, 0_u32), (6, 10), (9, 30)] {
        for first in [old + 1, old.wrapping_sub(1), old + 100, 65_536 + old, u32::MAX] {
            is_none(with(index, first), 5);
        }
    }
    for (index, old) in [(4, 10), (7, 20)] {
        for length in [0, old - 1, old + 1, 65_536 + old, u32::MAX] {
            is_none(with(index, length), 5);
        }
    }
    // The last slot ends after the frame.
    for length in [71, 100, 1_000_000, u32::MAX - 29, u32::MAX] {
        is_none(with(10, length), 5);
    }
}

/// What the changes above leave right.
#[test]
fn numbers_that_may_be_so() {
    for (index, number) in
        [(0, 61), (0, 1_000_000), (1, 0), (1, 1), (2, 14), (8, 1), (10, 0), (10, 69)]
    {
        let mut record = with(index, number);
        assert_eq!(admit_one(&mut record, 15, 1), Ok(()), "{index} {number}");
        assert_eq!(judge_release(&mut record, 15), Ok(()), "{index} {number}");
    }
}

/// Nothing is wrong with 16 slots but the count.
#[test]
fn more_slots_than_places() {
    let guests: Vec<(u32, u32)> = (0..16).map(|place| (place, place)).collect();
    for count in [17, 32, 256 + 16, u32::MAX] {
        let mut record = record_of(1_000_000, &guests);
        record[1] = count;
        for place in 0..16 {
            assert_eq!(admit_one(&mut record, place, 1), refused(101), "{count}");
            assert_eq!(judge_release(&mut record, place), refused(102), "{count}");
        }
    }
}

/// Slots end to end whose lengths add up to 2^32, or to a little more.
#[test]
fn sums_are_exact() {
    for last in [0, 1, 2, 60, 100] {
        let mut record = record_of(100, &[(1, 1 << 31), (2, (1 << 31) - 1), (3, 1 + last)]);
        is_none(record, 3);
        // A fourth slot that begins where the others would end in 32 bits.
        record[1] = 4;
        record[11..14].copy_from_slice(&[4, last, 1]);
        is_none(record, 3);
    }
}

/// A place counts as taken in an ill-formed record too: in the first 16 slots of its count.
#[test]
fn places_of_ill_formed_records() {
    for count in [1, 2, 3, 15, 16, 17, 1_000, u32::MAX] {
        for slot in 0..PLACES {
            // No frame; every other slot has a place that there is not.
            let mut record = [99; RECORD_NUMBERS];
            (record[0], record[1]) = (0, count);
            record[2 + 3 * slot] = 7;
            let (admit, release) = if (slot as u32) < count { (101, 102) } else { (102, 101) };
            assert_eq!(admit_one(&mut record, 7, 1), refused(admit), "{count} {slot}");
            assert_eq!(judge_release(&mut record, 7), refused(release), "{count} {slot}");
            assert_eq!(admit_one(&mut record, 99, 1), refused(100), "{count} {slot}");
        }
    }
}

/// Every length up to 60: a slot that is there in full is looked at, if it is one of the first 16 of
/// the count.
#[test]
fn records_of_other_lengths() {
    for length in (0..=60).filter(|length| *length != RECORD_NUMBERS) {
        for slot in 0..20 {
            for count in [1, 16, 17, 20, u32::MAX] {
                let mut record = [99; 62];
                (record[0], record[1], record[2 + 3 * slot]) = (100, count, 7);
                let record = &mut record[..length];
                let counted = (slot as u32) < count && slot < PLACES;
                let taken = counted && 5 + 3 * slot <= length;
                let (admit, release) = if taken { (101, 102) } else { (102, 101) };
                assert_eq!(admit_one(record, 7, 1), refused(admit), "{length} {slot} {count}");
                assert_eq!(judge_release(record, 7), refused(release), "{length} {slot} {count}");
                assert_eq!(admit_one(record, 16, 1), refused(100), "{length} {slot} {count}");
                assert_eq!(judge_release(record, 16), refused(100), "{length} {slot} {count}");
            }
        }
    }
}

/// A record whose 50 numbers would do is none if it is shorter or longer.
#[test]
fn good_numbers_of_another_length() {
    let good = record_of(100, &GUESTS);
    for length in (5..=60).filter(|length| *length != RECORD_NUMBERS) {
        let mut record = good.to_vec();
        record.resize(length, 0);
        assert_eq!(admit_one(&mut record, 15, 1), refused(102), "{length}");
        assert_eq!(judge_release(&mut record, 5), refused(102), "{length}");
        assert_eq!(admit_one(&mut record, 5, 1), refused(101), "{length}");
        assert_eq!(judge_release(&mut record, 15), refused(101), "{length}");
    }
}

/// The record with something past its count.
fn unclean(mut record: Record) -> Record {
    let past = 2 + 3 * record[1] as usize;
    for (index, number) in record[past..].iter_mut().enumerate() {
        // Places that are taken or free, and large numbers.
        *number = [5, 15, u32::MAX, 7][index % 4];
    }
    record
}

/// A call that is done leaves 0 there, and a refused one what there was.
#[test]
fn what_is_past_the_count() {
    for guests in [&GUESTS[..], &GUESTS[..1], &[]] {
        let mut record = unclean(record_of(100, guests));
        let before = record;
        assert_eq!(admit_one(&mut record, 15, 101), refused(103));
        assert_eq!(admit_one(&mut record, 15, 0), refused(104));
        assert_eq!(judge_release(&mut record, 15), refused(101));
        assert_eq!(record, before);
        assert_eq!(admit_one(&mut record, 15, 1), Ok(()));
        assert_eq!(record, record_of(100, &[guests, &[(15, 1)]].concat()));
    }
    let mut record = unclean(record_of(100, &GUESTS));
    assert_eq!(judge_release(&mut record, 0), Ok(()));
    assert_eq!(record, record_of(100, &[(5, 10), (9, 30)]));
    let mut record = unclean(bare(100));
    assert_eq!(judge_release(&mut record, 5), refused(101));
    assert_eq!(record, unclean(bare(100)));
}
