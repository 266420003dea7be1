//! Admission of guests to the frame of a core.
//!
//! A record is 50 numbers: the length of the frame in ticks, how many slots there are, and three
//! for each slot in order of admission: its place, its first tick and its length.

use crate::fault::Fault;

pub const PLACES: usize = 16;
pub const MOST_FRAME: u32 = 1_000_000;
pub const MOST_TICKS: u32 = 1_000;
pub const RECORD_NUMBERS: usize = 2 + 3 * PLACES;

/// The numbers of the refusals that are not the check's.
pub const NO_SUCH_PLACE: u32 = 100;
/// At an admission; at a release, that it is not taken.
pub const PLACE_TAKEN: u32 = 101;
pub const RECORD_ILL_FORMED: u32 = 102;
pub const NO_ROOM: u32 = 103;
pub const TICKS_OUT_OF_RANGE: u32 = 104;

/// Admits a guest: it gets the next slot, as long as its step number times the ticks per step. A
/// refusal leaves the record as it was. `work` ends as after `check`, or untouched where the check
/// was not reached.
pub fn admit(
    record: &mut [u32],
    place: u32,
    handler: &[u8],
    proof: &[u8],
    ticks: u32,
    work: &mut [u64],
) -> Result<(), Fault> {
    must(exists(place), NO_SUCH_PLACE)?;
    must(!is_taken(record, place), PLACE_TAKEN)?;
    let mut frame = read(record)?;
    must((1..=MOST_TICKS).contains(&ticks), TICKS_OUT_OF_RANGE)?;
    let steps = crate::decide(handler, proof, work)?;
    frame.guests.push(Guest { place, need: u64::from(steps) * u64::from(ticks) });
    must(frame.is_within(), NO_ROOM)?;
    frame.write(record);
    Ok(())
}

/// Releases the guest of a place: the slots after its own move up.
pub fn release(record: &mut [u32], place: u32) -> Result<(), Fault> {
    must(exists(place), NO_SUCH_PLACE)?;
    must(is_taken(record, place), PLACE_TAKEN)?;
    let mut frame = read(record)?;
    frame.guests.retain(|guest| guest.place != place);
    frame.write(record);
    Ok(())
}

fn must(holds: bool, number: u32) -> Result<(), Fault> {
    if holds {
        Ok(())
    } else {
        Err(Fault::at_bit(number, 0))
    }
}

fn exists(place: u32) -> bool {
    (place as usize) < PLACES
}

/// Whether one of the slots has the place, however ill-formed the record is.
fn is_taken(record: &[u32], place: u32) -> bool {
    slots(record).any(|[taken, ..]| taken == place)
}

/// The slots that a record of any length has in full, at most the first 16 of its count.
fn slots(record: &[u32]) -> impl Iterator<Item = [u32; 3]> + '_ {
    let (count, numbers) = match record {
        [_, count, numbers @ ..] => (*count as usize, numbers),
        _ => (0, &[][..]),
    };
    let in_full = numbers.chunks_exact(3).map(|slot| [slot[0], slot[1], slot[2]]);
    in_full.take(count.min(PLACES))
}

/// The frame that a record holds, or 102.
fn read(record: &[u32]) -> Result<Frame, Fault> {
    Frame::of(record).ok_or_else(|| Fault::at_bit(RECORD_ILL_FORMED, 0))
}

/// A guest that was admitted, and the ticks that it needs.
struct Guest {
    place: u32,
    need: u64,
}

/// A frame with its guests in order of admission. Where a slot begins is not kept: it is where the
/// one before it ends.
struct Frame {
    length: u32,
    guests: Vec<Guest>,
}

impl Frame {
    /// None where the record is ill-formed.
    fn of(record: &[u32]) -> Option<Frame> {
        let &[length, count, ..] = record else { return None };
        let right_length = record.len() == RECORD_NUMBERS && (1..=MOST_FRAME).contains(&length);
        if !right_length || count as usize > PLACES {
            return None;
        }
        let mut frame = Frame { length, guests: Vec::with_capacity(PLACES) };
        for [place, first, need] in slots(record) {
            if !exists(place) || frame.has(place) || u64::from(first) != frame.end() {
                return None;
            }
            frame.guests.push(Guest { place, need: u64::from(need) });
        }
        frame.is_within().then_some(frame)
    }

    fn has(&self, place: u32) -> bool {
        self.guests.iter().any(|guest| guest.place == place)
    }

    /// The tick after the last slot: the needs of all guests.
    fn end(&self) -> u64 {
        self.guests.iter().map(|guest| guest.need).sum()
    }

    /// Whether there is room for all guests.
    fn is_within(&self) -> bool {
        self.end() <= u64::from(self.length)
    }

    /// Lays the slots out end to end, with 0 past the last one. They lie within the frame, so each
    /// number fits.
    fn write(&self, record: &mut [u32]) {
        record[1..].fill(0);
        record[1] = self.guests.len() as u32;
        let mut first = 0;
        for (slot, guest) in record[2..].chunks_exact_mut(3).zip(&self.guests) {
            let length = guest.need as u32;
            slot.copy_from_slice(&[guest.place, first, length]);
            first += length;
        }
    }
}

#[cfg(test)]
mod tests {
    use super::*;
    use crate::writer::spelled;
    use crate::TABLE_WORDS;

    /// c ← 1 over one variable of size 2: one step.
    fn store() -> (Vec<u8>, Vec<u8>) {
        let proof = "00001 00011  11  0000 0100 0101  001 0000 0000 0001 0010";
        (spelled("001 00010  001 00 00 00000001"), spelled(proof))
    }

    fn bare(length: u32) -> Vec<u32> {
        let mut record = vec![0; RECORD_NUMBERS];
        record[0] = length;
        record
    }

    /// Admits the guest of one step, so that its need is the ticks.
    fn admitted(record: &mut [u32], place: u32, ticks: u32) -> Result<(), Fault> {
        let ((handler, proof), mut work) = (store(), vec![0; TABLE_WORDS]);
        admit(record, place, &handler, &proof, ticks, &mut work)
    }

    fn refused(number: u32) -> Result<(), Fault> {
        Err(Fault::at_bit(number, 0))
    }

    #[test]
    fn guests_come_and_go() {
        let mut record = bare(60);
        for (place, ticks) in [(5, 10), (0, 20), (15, 30)] {
            assert_eq!(admitted(&mut record, place, ticks), Ok(()));
        }
        assert_eq!(record[..12], [60, 3, 5, 0, 10, 0, 10, 20, 15, 30, 30, 0]);
        assert_eq!(admitted(&mut record, 1, 1), refused(103));
        assert_eq!(release(&mut record, 0), Ok(()));
        assert_eq!(record[..9], [60, 2, 5, 0, 10, 15, 10, 30, 0]);
        assert_eq!(release(&mut record, 0), refused(101));
        assert_eq!(admitted(&mut record, 1, 21), refused(103));
        assert_eq!(admitted(&mut record, 1, 20), Ok(()));
        assert_eq!(record[..12], [60, 3, 5, 0, 10, 15, 10, 30, 1, 40, 20, 0]);
    }

    #[test]
    fn ill_formed_records() {
        for (index, number) in [(0, 0), (0, 1_000_001), (1, 17), (2, 16), (3, 1), (4, 61)] {
            let mut record = bare(60);
            admitted(&mut record, 3, 10).expect("there is room");
            record[index] = number;
            assert_eq!(admitted(&mut record, 4, 1), refused(102), "{index} {number}");
        }
        // A place twice, and a sum of lengths over 2^32.
        for last in [[3, 10, 10], [4, u32::MAX, 2]] {
            let mut record = bare(60);
            record[1..5].copy_from_slice(&[2, 3, 0, last[1]]);
            record[5..8].copy_from_slice(&last);
            assert_eq!(release(&mut record, 3), refused(102), "{last:?}");
        }
    }

    /// The place is looked for in what there is, and what there is must be a record.
    #[test]
    fn records_of_other_lengths() {
        let mut record = bare(60);
        admitted(&mut record, 3, 10).expect("there is room");
        for length in 0..RECORD_NUMBERS {
            let number = if length < 5 { 102 } else { 101 };
            assert_eq!(admitted(&mut record[..length], 3, 1), refused(number), "{length}");
            assert_eq!(release(&mut record[..length], 3), refused(203 - number), "{length}");
        }
    }
}
