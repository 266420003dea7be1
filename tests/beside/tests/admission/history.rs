//! What has happened to a frame since it was bare, and what the request says of it.

use super::Record;
use beside::admitted::{refused, Admission};
use reference::Verdict;

/// The length of a frame, and the guests that were admitted and not released since, each with its
/// place and its need.
pub struct History {
    pub frame: u32,
    pub present: Vec<(u32, u64)>,
}

impl History {
    pub fn new(frame: u32) -> History {
        History { frame, present: vec![] }
    }

    pub fn has(&self, place: u32) -> bool {
        self.present.iter().any(|(taken, _)| *taken == place)
    }

    /// All that was admitted.
    pub fn needs(&self) -> u64 {
        self.present.iter().map(|(_, need)| need).sum()
    }

    pub fn left(&self) -> u64 {
        u64::from(self.frame) - self.needs()
    }

    /// What an admission must answer: refused for room only if the needs add up to more than the
    /// frame, and for the other reasons in their order.
    pub fn admit(&mut self, place: u32, ticks: u32, verdict: Verdict) -> Admission {
        if place > 15 {
            return refused(100);
        }
        if self.has(place) {
            return refused(101);
        }
        if ticks == 0 || ticks > 1_000 {
            return refused(104);
        }
        let Verdict::Accepted(steps) = verdict else { return Err(verdict) };
        let need = u64::from(steps) * u64::from(ticks);
        if self.needs() + need > u64::from(self.frame) {
            return refused(103);
        }
        self.present.push((place, need));
        Ok(())
    }

    /// What a release must answer.
    pub fn release(&mut self, place: u32) -> Admission {
        if place > 15 {
            return refused(100);
        }
        let Some(index) = self.present.iter().position(|(taken, _)| *taken == place) else {
            return refused(101);
        };
        self.present.remove(index);
        Ok(())
    }

    /// Panics unless the slots are those of the guests present, end to end from tick 0, within the
    /// frame, each as long as the need, and no place is there twice.
    pub fn hold(&self, record: &Record) {
        assert_eq!(record[..2], [self.frame, self.present.len() as u32]);
        let slots = record[2..].chunks(3).take(self.present.len());
        let (mut end, mut places) = (0, 0_u32);
        for (slot, (place, need)) in slots.zip(&self.present) {
            let [taken, first, length] = [slot[0], slot[1], slot[2]];
            assert_eq!((taken, first, u64::from(length)), (*place, end, *need), "{record:?}");
            assert_eq!(places >> taken & 1, 0, "place {taken} twice: {record:?}");
            places |= 1 << taken;
            end += length;
        }
        assert!(end <= self.frame, "{record:?}");
    }

    /// Panics unless there is nothing past the slots.
    pub fn hold_clean(&self, record: &Record) {
        let past = &record[2 + 3 * self.present.len()..];
        assert!(past.iter().all(|number| *number == 0), "{record:?}");
    }
}
