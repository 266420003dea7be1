//! How often each outcome was met.

use super::ill_formed::Wrong;
use beside::admitted::Admission;
use beside::lawful::{ADMIT_NUMBERS, NUMBERS};
use beside::number;
use std::collections::BTreeMap;
use std::fmt::Debug;

const LEAST_EACH: usize = 50;

/// What is told apart among the calls that are done, and among those that are refused for room.
#[derive(Clone, Copy, PartialEq, Eq, PartialOrd, Ord, Debug)]
pub enum Event {
    Admitted,
    EmptySlot,
    FrameFilled,
    LastPlaceTaken,
    OneTickTooMany,
    ReleasedFirst,
    ReleasedBetween,
    ReleasedLast,
    ReleasedOnly,
}

impl Event {
    const ALL: [Event; 9] = [
        Event::Admitted,
        Event::EmptySlot,
        Event::FrameFilled,
        Event::LastPlaceTaken,
        Event::OneTickTooMany,
        Event::ReleasedFirst,
        Event::ReleasedBetween,
        Event::ReleasedLast,
        Event::ReleasedOnly,
    ];
}

#[derive(Default)]
pub struct Tally {
    pub sequences: usize,
    calls: usize,
    /// Of admissions and of releases, by number; 0 is done.
    admissions: BTreeMap<u32, usize>,
    releases: BTreeMap<u32, usize>,
    events: BTreeMap<Event, usize>,
    /// Of refusals with 102, by what was wrong.
    wrong: BTreeMap<Wrong, usize>,
}

impl Tally {
    pub fn add(&mut self, admits: bool, answer: Admission) {
        let counts = if admits { &mut self.admissions } else { &mut self.releases };
        *counts.entry(answer.map_or_else(number, |()| 0)).or_default() += 1;
        self.calls += 1;
    }

    pub fn event(&mut self, event: Event) {
        *self.events.entry(event).or_default() += 1;
    }

    pub fn wrong(&mut self, wrong: Wrong) {
        *self.wrong.entry(wrong).or_default() += 1;
    }

    pub fn print(&self) {
        println!("{} sequences, {} calls", self.sequences, self.calls);
        println!("admissions by number, 0 done: {:?}", self.admissions);
        println!("releases by number, 0 done: {:?}", self.releases);
        println!("{:?}", self.events);
        println!("102 by what was wrong: {:?}", self.wrong);
    }

    /// Fails where something was too rare.
    pub fn often_enough(&self) {
        often_enough(&[&[0], &NUMBERS[..], &ADMIT_NUMBERS].concat(), &self.admissions);
        often_enough(&[0, 100, 101, 102], &self.releases);
        assert_eq!(self.releases.len(), 4, "a release has another number");
        often_enough(&Event::ALL, &self.events);
        often_enough(&Wrong::ALL, &self.wrong);
    }
}

fn often_enough<T: Ord + Debug>(all: &[T], counts: &BTreeMap<T, usize>) {
    let seen = |what: &T| counts.get(what).copied().unwrap_or(0);
    let rare: Vec<&T> = all.iter().filter(|what| seen(what) < LEAST_EACH).collect();
    assert!(rare.is_empty(), "less than {LEAST_EACH}: {rare:?}");
}
