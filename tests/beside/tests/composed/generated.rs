//! Guests, and guests with something in the way: the composition by every checker, and what must
//! hold of it, counted by kind.
//!
//! `HANDOVER_COMPARISONS` asks for more than the default, `HANDOVER_SEED` for others.

use super::composed;
use super::promise::explored;
use beside::composed::Sizes;
use beside::lawful::COMPOSE_NUMBERS;
use beside::{judge_lent, setting};
use generate::damage::Files;
use generate::guests::{two_guests, variant};
use generate::pairs::Scale;
use generate::random::Random;
use reference::compose::TOO_FEW_WORDS;
use reference::{Composition, TABLE_WORDS};
use std::collections::{BTreeMap, BTreeSet};

const LEAST_EACH: usize = 50;
const VARIANTS: usize = 10;

/// How often each outcome was met, by name, how many pairs of pairs were composed, and of how many
/// results every run was explored.
#[derive(Default)]
struct Tally {
    counts: BTreeMap<String, usize>,
    own: BTreeMap<u32, BTreeSet<u32>>,
    pairs: usize,
    explored: usize,
}

impl Tally {
    fn add(&mut self, composition: &Composition) {
        *self.counts.entry(outcome(composition)).or_default() += 1;
        if let Composition::Refused { pair: pair @ 1..=2, fault } = composition {
            self.own.entry(*pair).or_default().insert(fault.number);
        }
    }

    fn of(&self, outcome: &str) -> usize {
        self.counts.get(outcome).copied().unwrap_or(0)
    }

    fn print(&self) {
        println!("{} pairs of pairs, {} results explored", self.pairs, self.explored);
        for (outcome, count) in &self.counts {
            println!("  {outcome}: {count}");
        }
        println!("different numbers of each pair: {:?}", self.own);
    }

    /// Fails where one of the outcomes was too rare.
    fn often_enough(&self, outcomes: &[String]) {
        let rare: Vec<&String> =
            outcomes.iter().filter(|name| self.of(name) < LEAST_EACH).collect();
        assert!(rare.is_empty(), "less than {LEAST_EACH}: {rare:?}");
        assert!(self.of("made") * 5 > self.pairs, "only {} were made", self.of("made"));
        assert!(self.explored * 20 > self.pairs, "only {} were explored", self.explored);
        for (pair, numbers) in &self.own {
            assert!(numbers.len() > 30, "pair {pair} had only {numbers:?}");
        }
    }
}

fn outcome(composition: &Composition) -> String {
    match composition {
        Composition::Made { .. } => "made".into(),
        Composition::Refused { pair: 0, fault } => fault.number.to_string(),
        Composition::Refused { pair, fault } if fault.number == 2 => format!("2 of pair {pair}"),
        Composition::Refused { pair, .. } => format!("pair {pair}'s own"),
    }
}

#[test]
fn guests_and_what_is_in_their_way() {
    let wanted = setting("HANDOVER_COMPARISONS", 20_000) as usize;
    let mut random = Random::new(setting("HANDOVER_SEED", 0xC0A4));
    let mut tally = Tally::default();
    while tally.pairs < wanted {
        let scale = if random.chance(25) { Scale::SMALL } else { Scale::FULL };
        let guests = two_guests(&mut random, scale);
        for _ in 0..VARIANTS {
            let files = variant(&mut random, &guests);
            let composition = composed(&files);
            tally.add(&composition);
            tally.pairs += 1;
            tally.explored += usize::from(explored(&composition));
            if random.chance(10) {
                tally.add(&lent(&mut random, &files, &composition));
            }
        }
    }
    let of_pairs = [1, 2].map(|pair| [format!("2 of pair {pair}"), format!("pair {pair}'s own")]);
    let others = [&[TOO_FEW_WORDS], &COMPOSE_NUMBERS[..]].concat();
    let others = others.into_iter().map(|number| number.to_string());
    tally.print();
    tally.often_enough(&of_pairs.concat().into_iter().chain(others).collect::<Vec<_>>());
}

/// The same with other words and rooms: too few words, or rooms about as long as the files.
fn lent(random: &mut Random, [first, second]: &[Files; 2], known: &Composition) -> Composition {
    let words = match random.below(4) {
        0 => random.below(TABLE_WORDS),
        _ => TABLE_WORDS + random.below(3),
    };
    let lengths = match known {
        Composition::Made { handler, proof, .. } => [handler.len(), proof.len()],
        Composition::Refused { .. } => [20, 100],
    };
    let [handler, proof] = lengths.map(|length| match random.below(3) {
        0 => random.below(length),
        _ => length + random.below(3),
    });
    judge_lent((&first.0, &first.1), (&second.0, &second.1), Sizes { words, handler, proof })
}
