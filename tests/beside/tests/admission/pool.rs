//! Pairs that are made once and picked again and again.

use super::of_steps;
use beside::lawful::NUMBERS;
use beside::number;
use generate::construct;
use generate::damage::{damaged, Files};
use generate::pairs::{accepted, Pair, Scale};
use generate::random::Random;
use reference::{Verdict, TABLE_WORDS};
use std::collections::BTreeMap;

/// A pair and what the check says of it.
#[derive(Clone)]
pub struct Entry {
    pub files: Files,
    pub verdict: Verdict,
}

impl Entry {
    fn new(files: Files) -> Entry {
        let mut work = vec![0; TABLE_WORDS];
        let verdict = reference::check(&files.0, &files.1, &mut work);
        Entry { files, verdict }
    }

    /// The step number, if the pair is accepted.
    pub fn steps(&self) -> Option<u32> {
        match self.verdict {
            Verdict::Accepted(steps) => Some(steps),
            Verdict::Refused { .. } => None,
        }
    }
}

/// Step numbers about the limits of a frame, and of 16 and 32 bits.
const STEPS: [u32; 29] = [
    0, 1, 2, 3, 5, 7, 10, 16, 31, 40, 64, 100, 255, 500, 999, 1_000, 1_001, 4_096, 10_000, 31_250,
    65_535, 65_536, 100_000, 999_999, 1_000_000, 1_000_001, 4_294_968, 2147483648, 4294967295,
];

const ACCEPTED: usize = 60;
const EACH: usize = 3;

/// Accepted pairs, and refused ones by number.
pub struct Pool {
    pub accepted: Vec<Entry>,
    refused: BTreeMap<u32, Vec<Entry>>,
}

impl Pool {
    /// Every number of a check is among them but 1 and 2, which are no pair's own.
    pub fn new(random: &mut Random) -> Pool {
        let mut pool = Pool { accepted: vec![], refused: BTreeMap::new() };
        while pool.accepted.len() < ACCEPTED || !pool.has_all() {
            let scale = if random.chance(75) { Scale::SMALL } else { Scale::FULL };
            let pair = accepted(random, scale);
            pool.add(files(&pair));
            for _ in 0..30 {
                pool.add(damaged(random, &pair));
            }
            let number = *random.pick(&construct::NUMBERS);
            if let Some(fault) = construct::fault(random, &pair, number) {
                pool.add((fault.handler, fault.proof));
            }
        }
        for steps in STEPS {
            let entry = Entry::new(of_steps(steps));
            assert_eq!(entry.verdict, Verdict::Accepted(steps));
            pool.accepted.push(entry);
        }
        pool
    }

    /// Adds a pair, unless there are enough of its number.
    fn add(&mut self, files: Files) {
        let entry = Entry::new(files);
        let (entries, most) = match number(entry.verdict) {
            0 => (&mut self.accepted, ACCEPTED),
            number => (self.refused.entry(number).or_default(), EACH),
        };
        if entries.len() < most {
            entries.push(entry);
        }
    }

    fn has_all(&self) -> bool {
        NUMBERS.iter().all(|number| *number <= 2 || self.refused.contains_key(number))
    }

    /// A pair of some number, each number being as likely as any other.
    pub fn refused(&self, random: &mut Random) -> &Entry {
        let numbers: Vec<&u32> = self.refused.keys().collect();
        let number = *random.pick(&numbers);
        random.pick(&self.refused[number])
    }

    /// A pair and ticks whose product is just this, if there is one.
    pub fn of_need(&self, random: &mut Random, need: u64) -> Option<(&Entry, u32)> {
        let ticks = |entry: &Entry| {
            let steps = entry.steps().map(u64::from).filter(|steps| *steps > 0)?;
            let ticks = need / steps;
            (ticks * steps == need && (1..=1_000).contains(&ticks)).then_some(ticks as u32)
        };
        let fitting = self.accepted.iter().filter_map(|entry| Some((entry, ticks(entry)?)));
        let fitting: Vec<(&Entry, u32)> = fitting.collect();
        (!fitting.is_empty()).then(|| *random.pick(&fitting))
    }
}

fn files(pair: &Pair) -> Files {
    (pair.handler_file.bytes.clone(), pair.proof_file.bytes.clone())
}
