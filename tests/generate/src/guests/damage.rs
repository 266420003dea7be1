//! Two guests with something that may be in the way of their composition.

use super::limits::{self, Limit};
use crate::construct;
use crate::damage::{damaged, Files};
use crate::pack;
use crate::pairs::{accepted, Pair, Scale};
use crate::random::Random;
use crate::renumber::renumbered;
use reference::states::Relation;
use reference::LONGEST_FILE;

/// The files of two guests, with their tables numbered in any way, or what was made of them: at
/// times something is in the way, or at a limit.
pub fn variant(random: &mut Random, guests: &[Pair; 2]) -> [Files; 2] {
    let mut pairs = guests.clone();
    if random.chance(30) {
        pairs.reverse();
    }
    match random.below(100) {
        0..=39 => {}
        40..=69 => loosen(random, &mut pairs),
        70..=74 => *random.pick_mut(&mut pairs) = accepted(random, Scale::SMALL),
        75..=82 => return one_damaged(random, &pairs),
        83..=90 => return one_fault(random, &pairs),
        91..=94 => return one_too_long(random, &pairs),
        _ => {
            let limit = *random.pick(&Limit::ALL);
            let any = random.between(0, limit.most_over());
            let over = *random.pick(&[0, 0, 1, any]);
            pairs = limits::pairs(random, limit, over);
        }
    }
    pairs.map(|pair| numbered(random, &pair))
}

/// The files, at times with the tables in another order, more often than once or for no node.
pub fn numbered(random: &mut Random, pair: &Pair) -> Files {
    let states = pair.handler.space.states();
    let proof = if random.chance(50) {
        pack::proof(&renumbered(random, &pair.proof, states), states).bytes
    } else {
        pair.proof_file.bytes.clone()
    };
    (pair.handler_file.bytes.clone(), proof)
}

/// A wider G or a narrower P and R for one of them or both.
fn loosen(random: &mut Random, pairs: &mut [Pair]) {
    for _ in 0..random.between(1, 2) {
        let pair = random.pick_mut(pairs);
        let other = if random.chance(50) { widened(random, pair) } else { narrowed(random, pair) };
        *pair = other.unwrap_or_else(|| pair.clone());
    }
}

/// The pair with one more pair of states in G. None where it takes too many tables.
fn widened(random: &mut Random, pair: &Pair) -> Option<Pair> {
    let states = pair.handler.space.states();
    let mut root = pair.derivation.clone();
    let [s, t] = [(); 2].map(|()| random.below(states));
    let mut g = root.tables.g.clone();
    g.set_row(s, g.row(s).with(t));
    let q = root.tables.q.clone();
    root.settle(g, q);
    Pair::new(pair.handler.clone(), root)
}

/// The pair under a weaken with fewer states in P and, at times, fewer pairs in R. None where
/// it takes too many nodes or tables.
fn narrowed(random: &mut Random, pair: &Pair) -> Option<Pair> {
    let tables = &pair.derivation.tables;
    let kept = *random.pick(&[100, 100, 98, 50]);
    let r = Relation::of_rows(tables.r.rows().iter().map(|row| random.thinned(*row, kept)));
    let share = *random.pick(&[10, 50, 100]);
    let p = r.reach().image(random.thinned(tables.p, share));
    Pair::new(pair.handler.clone(), pair.derivation.clone().weakened(p, r))
}

/// One of the pairs with damage, at times both.
fn one_damaged(random: &mut Random, pairs: &[Pair; 2]) -> [Files; 2] {
    let chosen = random.below(2);
    let both = random.chance(20);
    [0, 1].map(|index| match index == chosen || both {
        true => damaged(random, &pairs[index]),
        false => numbered(random, &pairs[index]),
    })
}

/// One of the pairs with a file that is too long, at times both; the other may be damaged.
fn one_too_long(random: &mut Random, pairs: &[Pair; 2]) -> [Files; 2] {
    let mut files = one_damaged(random, pairs);
    for _ in 0..random.between(1, 2) {
        let (handler, proof) = random.pick_mut(&mut files);
        let file = if random.chance(50) { handler } else { proof };
        file.resize(LONGEST_FILE + random.between(1, 9), 0);
    }
    files
}

/// One of the pairs with a constructed fault.
fn one_fault(random: &mut Random, pairs: &[Pair; 2]) -> [Files; 2] {
    let chosen = random.below(2);
    [0, 1].map(|index| {
        let number = *random.pick(&construct::NUMBERS);
        match construct::fault(random, &pairs[index], number) {
            Some(fault) if index == chosen => (fault.handler, fault.proof),
            _ => numbered(random, &pairs[index]),
        }
    })
}
