//! Compositions composed with further guests, in both orders of bracketing.

use super::composed;
use super::promise::{explored, Trees};
use beside::setting;
use generate::damage::Files;
use generate::guests::{guests, numbered};
use generate::pairs::Scale;
use generate::random::Random;
use reference::Composition;

/// How often a result was made of three guests, of the first two and the third or of the first and
/// the last two, and of four; and of how many results, of two guests too, every run was explored.
#[derive(Default, Debug)]
struct Tally {
    left: usize,
    right: usize,
    four: usize,
    explored: usize,
}

impl Tally {
    /// Composes, or none where a limit is passed: guests allow each other, and so do their
    /// compositions.
    fn made(&mut self, first: &Files, second: &Files) -> Option<Files> {
        let composition = composed(&[first.clone(), second.clone()]);
        self.explored += usize::from(explored(&composition));
        match composition {
            Composition::Made { handler, proof, .. } => Some((handler, proof)),
            Composition::Refused { pair: 0, fault } if fault.number == 94 => None,
            refused => panic!("{refused:?} {first:02X?} {second:02X?}"),
        }
    }
}

#[test]
fn three_and_four_guests() {
    let mut random = Random::new(setting("HANDOVER_SEED", 0xC0A4) ^ 3 << 32);
    let mut tally = Tally::default();
    for _ in 0..setting("HANDOVER_COMPARISONS", 20_000).div_ceil(100) {
        let pairs = guests(&mut random, Scale::SMALL, 4);
        let files: Vec<Files> = pairs.iter().map(|pair| numbered(&mut random, pair)).collect();
        let [one, two, three, four] = &files[..] else { unreachable!("there are four") };
        let [first, last] = [(one, two), (three, four)].map(|(a, b)| tally.made(a, b));
        let left = first.as_ref().and_then(|both| tally.made(both, three));
        let right = tally.made(two, three).and_then(|both| tally.made(one, &both));
        let all = first.zip(last).and_then(|(first, last)| tally.made(&first, &last));
        tally.left += usize::from(left.is_some());
        tally.right += usize::from(right.is_some());
        tally.four += usize::from(all.is_some());
        if let Some((left, right)) = left.zip(right) {
            same_promise(&left, &right);
        }
    }
    println!("{tally:?}");
    let Tally { left, right, four, explored } = tally;
    assert!(left >= 50 && right >= 50 && four >= 50 && explored >= 500);
}

/// The order of bracketing changes neither the step number nor the root's tables.
fn same_promise(left: &Files, right: &Files) {
    let [left, right] = [left, right].map(|(handler, proof)| Trees::read(handler, proof));
    assert_eq!(left.steps, right.steps);
    let (a, b) = (left.root(), right.root());
    assert!(a.p == b.p && a.r == b.r && a.g == b.g && a.q == b.q);
}
