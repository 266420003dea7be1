//! The renumberer keeps its word: its proofs are well formed, they are the same proof, and their
//! tables are numbered in every way that the form has to undo. So do the other makers of proofs.

use generate::pack::{self, What};
use generate::pairs::{accepted, Pair, Scale};
use generate::random::Random;
use generate::renumber::{agree, renumbered, similar, MOST_TABLES};
use generate::{arbitrary, longest};
use reference::canonical;
use reference::proof_file::{self, Node, Proof, Rule};
use std::collections::BTreeSet;

/// Renumbered versions of accepted pairs.
fn versions(seed: u64, count: usize) -> impl Iterator<Item = (Pair, Proof)> {
    let mut random = Random::new(seed);
    (0..count).map(move |_| {
        let pair = accepted(&mut random, Scale::FULL);
        let proof = renumbered(&mut random, &pair.proof, pair.handler.space.states());
        (pair, proof)
    })
}

#[test]
fn renumbered_proofs_are_the_same_proof() {
    for (pair, proof) in versions(11, 1500) {
        let states = pair.handler.space.states();
        let file = pack::proof(&proof, states).bytes;
        assert_eq!(proof_file::read(&file, states).as_ref(), Ok(&proof));
        assert!(agree(&pair.proof, &proof) && agree(&proof, &pair.proof));
        // The generator numbers by first mention and has each table once: that is the form.
        let form = canonical(&pair.handler_file.bytes, &file, usize::MAX);
        assert_eq!(form, Ok(pair.proof_file.bytes));
    }
}

/// The numbers of the sets and of the relations that the nodes mention.
fn mentioned(node: &Node, sets: &mut BTreeSet<usize>, relations: &mut BTreeSet<usize>) {
    sets.insert(node.p);
    relations.extend([node.r, node.g, node.q]);
    if let Rule::While { k, w } = node.rule {
        sets.insert(k);
        relations.insert(w);
    }
    for child in &node.children {
        mentioned(child, sets, relations);
    }
}

#[test]
fn numberings_are_varied() {
    let mut seen = [0; NUMBERINGS.len()];
    for (pair, proof) in versions(12, 1500) {
        for (count, (_, numbering)) in seen.iter_mut().zip(NUMBERINGS) {
            *count += usize::from(numbering(&pair.proof, &proof));
        }
    }
    for (count, (name, _)) in seen.into_iter().zip(NUMBERINGS) {
        assert!(count >= 50, "only {count} numberings have {name}");
    }
}

type Numbering = (&'static str, fn(&Proof, &Proof) -> bool);

const NUMBERINGS: [Numbering; 8] = [
    ("16 sets", |_, new| new.sets.len() == MOST_TABLES),
    ("16 relations", |_, new| new.relations.len() == MOST_TABLES),
    ("sets in another order", |old, new| moved(&old.sets, &new.sets)),
    ("relations in another order", |old, new| moved(&old.relations, &new.relations)),
    ("a set that is mentioned by two numbers", |old, new| counts(new).0 > old.sets.len()),
    ("a relation that is mentioned by two numbers", |old, new| counts(new).1 > old.relations.len()),
    ("a set that no node mentions", |_, new| counts(new).0 < new.sets.len()),
    ("a relation that no node mentions", |_, new| counts(new).1 < new.relations.len()),
];

/// Whether there are as many tables, none added, in another order.
fn moved<T: PartialEq>(old: &[T], new: &[T]) -> bool {
    old.len() == new.len() && old != new
}

/// How many numbers of sets and of relations are mentioned.
fn counts(proof: &Proof) -> (usize, usize) {
    let (mut sets, mut relations) = (BTreeSet::new(), BTreeSet::new());
    mentioned(&proof.root, &mut sets, &mut relations);
    (sets.len(), relations.len())
}

/// Similar proofs are well formed; some agree with the proof, and most do not.
#[test]
fn similar_proofs_are_well_formed() {
    let mut random = Random::new(13);
    let mut same = 0;
    for (pair, proof) in versions(14, 1500) {
        let states = pair.handler.space.states();
        let other = similar(&mut random, &proof, states);
        let file = pack::proof(&other, states).bytes;
        assert_eq!(proof_file::read(&file, states).as_ref(), Ok(&other));
        same += usize::from(agree(&proof, &other));
    }
    assert!((300..900).contains(&same), "{same} agree");
}

/// Proofs at random are well formed, and some of them are as large as files can be.
#[test]
fn arbitrary_proofs_are_well_formed() {
    let mut random = Random::new(15);
    let (mut most_nodes, mut most_tables) = (0, 0);
    for round in 0..1500 {
        let states = [2, 3, 8, 63, 64][round % 5];
        let proof = arbitrary::proof(&mut random, states);
        let file = pack::proof(&proof, states);
        assert_eq!(proof_file::read(&file.bytes, states).as_ref(), Ok(&proof));
        most_nodes += usize::from(file.that_say(What::Rule).len() == 127);
        most_tables += usize::from(counts(&proof) == (MOST_TABLES, MOST_TABLES));
    }
    assert!(most_nodes >= 50 && most_tables >= 20, "{most_nodes} {most_tables}");
}

/// The one of nearly the greatest length has as many nodes and tables as there can be.
#[test]
fn the_longest_proof_is_well_formed() {
    let proof = longest::proof();
    let file = pack::proof(&proof, 64);
    assert_eq!(proof_file::read(&file.bytes, 64).as_ref(), Ok(&proof));
    assert_eq!(file.that_say(What::Rule).len(), 127);
    assert_eq!(counts(&proof), (MOST_TABLES, MOST_TABLES));
}
