//! Frames spelled out from the request.

use super::{admit_one, admit_steps, bare, record_of};
use beside::admitted::refused;
use beside::judge_release;
use reference::admission::PLACES;

#[test]
fn slots_in_order_of_admission() {
    let mut record = bare(100);
    let guests = [(7, 30), (0, 1), (15, 40), (3, 29)];
    for (count, (place, ticks)) in guests.iter().enumerate() {
        assert_eq!(admit_one(&mut record, *place, *ticks), Ok(()));
        assert_eq!(record, record_of(100, &guests[..=count]));
    }
    assert_eq!(record[..14], [100, 4, 7, 0, 30, 0, 30, 1, 15, 31, 40, 3, 71, 29]);
}

/// The first, one in the middle, the last, and the only one.
#[test]
fn releases() {
    let guests = [(9, 10), (2, 20), (4, 5), (0, 65)];
    let mut record = record_of(100, &guests);
    let left: [(u32, &[(u32, u32)]); 4] =
        [(9, &[(2, 20), (4, 5), (0, 65)]), (4, &[(2, 20), (0, 65)]), (0, &[(2, 20)]), (2, &[])];
    for (place, left) in left {
        assert_eq!(judge_release(&mut record, place), Ok(()));
        assert_eq!(record, record_of(100, left));
        assert_eq!(judge_release(&mut record, place), refused(101));
    }
    assert_eq!(record, bare(100));
}

/// A guest that is released and admitted again comes last.
#[test]
fn a_gap_is_room_at_the_end() {
    let mut record = record_of(100, &[(1, 40), (2, 30), (3, 30)]);
    assert_eq!(admit_one(&mut record, 4, 1), refused(103));
    assert_eq!(judge_release(&mut record, 1), Ok(()));
    assert_eq!(admit_one(&mut record, 1, 41), refused(103));
    assert_eq!(record, record_of(100, &[(2, 30), (3, 30)]));
    assert_eq!(admit_one(&mut record, 1, 40), Ok(()));
    assert_eq!(record, record_of(100, &[(2, 30), (3, 30), (1, 40)]));
}

/// Frames and needs of which the one is just as long as the other, or a tick shorter.
#[test]
fn full_frames() {
    for (frame, steps, ticks) in
        [(1, 1, 1), (1_000, 1, 1_000), (1_000_000, 1_000, 1_000), (999_999, 1_001, 999)]
    {
        let mut record = bare(frame);
        assert_eq!(admit_steps(&mut record, 0, steps, ticks), Ok(()), "{frame}");
        assert_eq!(record, record_of(frame, &[(0, frame)]));
        assert_eq!(admit_one(&mut record, 1, 1), refused(103), "{frame}");
        if frame > 1 {
            let mut shorter = bare(frame - 1);
            assert_eq!(admit_steps(&mut shorter, 0, steps, ticks), refused(103), "{frame}");
        }
    }
    for left in 0..3 {
        let mut record = record_of(1_000_000, &[(0, 999_000), (1, 1_000 - left)]);
        assert_eq!(admit_one(&mut record, 2, left + 1), refused(103), "{left}");
        let filled = if left == 0 { Ok(()) } else { admit_one(&mut record, 2, left) };
        assert_eq!(filled, Ok(()), "{left}");
    }
}

/// A step number of 0 needs no tick: its slot lies where the next one begins, in a full frame too.
#[test]
fn empty_slots() {
    let mut record = bare(10);
    assert_eq!(admit_steps(&mut record, 5, 0, 1_000), Ok(()));
    assert_eq!(admit_one(&mut record, 6, 4), Ok(()));
    assert_eq!(admit_steps(&mut record, 7, 0, 1), Ok(()));
    assert_eq!(admit_steps(&mut record, 8, 0, 1), Ok(()));
    assert_eq!(admit_steps(&mut record, 9, 3, 2), Ok(()));
    assert_eq!(admit_steps(&mut record, 10, 0, 1), Ok(()));
    let slots = [5, 0, 0, 6, 0, 4, 7, 4, 0, 8, 4, 0, 9, 4, 6, 10, 10, 0];
    assert_eq!(record[2..20], slots);
    assert_eq!(admit_one(&mut record, 11, 1), refused(103));
    assert_eq!(judge_release(&mut record, 7), Ok(()));
    assert_eq!(judge_release(&mut record, 6), Ok(()));
    assert_eq!(record, record_of(10, &[(5, 0), (8, 0), (9, 6), (10, 0)]));
}

/// Needs over 2^32, of which the lower 32 bits would fit.
#[test]
fn needs_are_exact() {
    let needs = [(u32::MAX, 1_000), (u32::MAX, 1), (4_294_968, 1_000), (1 << 31, 2), (1 << 30, 4)];
    for (steps, ticks) in needs {
        let mut record = record_of(1_000_000, &[(0, 1)]);
        assert_eq!(admit_steps(&mut record, 1, steps, ticks), refused(103), "{steps} {ticks}");
        assert_eq!(record, record_of(1_000_000, &[(0, 1)]));
    }
}

#[test]
fn sixteen_guests() {
    let places: Vec<u32> = (0..PLACES as u32).map(|index| index * 7 % 16).collect();
    let guests: Vec<(u32, u32)> = places.iter().map(|place| (*place, 50 + place)).collect();
    let mut record = bare(1_000_000);
    for (place, ticks) in &guests {
        assert_eq!(admit_one(&mut record, *place, *ticks), Ok(()));
    }
    assert_eq!(record, record_of(1_000_000, &guests));
    for place in 0..16 {
        assert_eq!(admit_one(&mut record, place, 1), refused(101));
    }
    assert_eq!(admit_one(&mut record, 16, 1), refused(100));
    for place in 0..16 {
        assert_eq!(judge_release(&mut record, place), Ok(()));
        assert_eq!(admit_one(&mut record, place, 1), Ok(()));
        assert_eq!(record[47..], [place, record[48], 1]);
    }
}

/// Numbers whose lower bits would pass are among those that do not.
#[test]
fn limits() {
    for place in [16, 17, 31, 255, 256, 259, 65_536, 1 << 31, u32::MAX] {
        assert_eq!(admit_one(&mut bare(100), place, 1), refused(100), "{place}");
        assert_eq!(judge_release(&mut bare(100), place), refused(100), "{place}");
    }
    for place in 0..16 {
        assert_eq!(admit_one(&mut bare(100), place, 1), Ok(()), "{place}");
    }
    for ticks in [0, 1_001, 1_024, 65_536, 65_537, 1 << 31, u32::MAX] {
        assert_eq!(admit_one(&mut bare(1_000_000), 0, ticks), refused(104), "{ticks}");
    }
    for ticks in [1, 2, 999, 1_000] {
        assert_eq!(admit_one(&mut bare(1_000_000), 0, ticks), Ok(()), "{ticks}");
    }
    for frame in [0, 1_000_001, 1 << 20, 1 << 31, u32::MAX] {
        assert_eq!(admit_one(&mut bare(frame), 0, 1), refused(102), "{frame}");
    }
    for frame in [1, 2, 999_999, 1_000_000] {
        assert_eq!(admit_one(&mut bare(frame), 0, 1), Ok(()), "{frame}");
    }
}
