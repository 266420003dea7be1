//! N and the numbers of the root's tables: known ones, and both checkers on generated and
//! damaged pairs.
//!
//! `HANDOVER_COMPARISONS` asks for more than the default, `HANDOVER_SEED` for others.

use beside::lawful::NUMBERS;
use beside::{judge, judge_root, number, setting, HANDLER, PROOF};
use generate::construct;
use generate::damage::damaged;
use generate::pack::{self, What};
use generate::pairs::{accepted, Pair, Scale};
use generate::programs;
use generate::random::Random;
use generate::vacuous;
use reference::language::Statement;
use reference::LONGEST_FILE;
use std::collections::BTreeMap;

/// The numbers of files that cannot be read.
fn ill_formed(number: u32) -> bool {
    number == 2 || (10..=25).contains(&number)
}

fn root_of(states: u64, p: u64, r: u64, g: u64, q: u64) -> u64 {
    states + (p << 8) + (r << 16) + (g << 24) + (q << 32)
}

#[test]
fn the_first_sample() {
    assert_eq!(judge_root(&HANDLER, &PROOF), root_of(2, 0, 0, 1, 2));
    // Refused by condition 43, and answered all the same.
    let with_another_g = [0x08, 0xF0, 0x45, 0x20, 0x00, 0x40];
    assert_eq!(number(judge(&HANDLER, &with_another_g)), 43);
    assert_eq!(judge_root(&HANDLER, &with_another_g), root_of(2, 0, 0, 0, 2));
}

/// Every table number from 0 to 15 in each of the four fields, over 64 states.
#[test]
fn every_number_in_every_field() {
    let pair = vacuous::pair(&[8, 8], Statement::Nil);
    let mut proof = pair.proof;
    proof.sets.resize(16, proof.sets[0]);
    proof.relations.resize(16, proof.relations[0].clone());
    for number in 0..16 {
        for field in 0..4 {
            let mut numbers = [3, 5, 7, 11];
            numbers[field] = number;
            let root = &mut proof.root;
            [root.p, root.r, root.g, root.q] = numbers;
            let file = pack::proof(&proof, 64);
            let [p, r, g, q] = numbers.map(|table| table as u64);
            let found = judge_root(&pair.handler_file.bytes, &file.bytes);
            assert_eq!(found, root_of(64, p, r, g, q));
        }
    }
}

/// No step number is too large for an answer.
#[test]
fn the_step_limit_is_no_matter() {
    let steps = u64::from(u32::MAX) + 1;
    let pair = vacuous::pair(&[8, 8], programs::of_steps(steps));
    let (handler, proof) = (&pair.handler_file.bytes, &pair.proof_file.bytes);
    assert_eq!(number(judge(handler, proof)), 80);
    assert_eq!(judge_root(handler, proof), root_of(64, 0, 0, 0, 0));
}

/// At the limit a file is read, and has a further byte; over it, it is not read.
#[test]
fn lengths_of_files() {
    let empty: [u8; 0] = [];
    assert_eq!(judge_root(&empty, &PROOF), 0);
    assert_eq!(judge_root(&HANDLER, &empty), 0);
    for length in [LONGEST_FILE, LONGEST_FILE + 1] {
        for side in 0..2 {
            let mut files = [HANDLER.to_vec(), PROOF.to_vec()];
            files[side].resize(length, 0);
            assert_eq!(judge_root(&files[0], &files[1]), 0);
        }
    }
}

/// Counts by the number of the verdict, and holds the answer to that number and to the root
/// that the files were packed from, where they were.
fn compare(handler: &[u8], proof: &[u8], known: Option<u64>, counts: &mut BTreeMap<u32, u64>) {
    let mut work = [0; reference::TABLE_WORDS];
    let verdict = number(reference::check(handler, proof, &mut work));
    let root = judge_root(handler, proof);
    assert_eq!(root == 0, ill_formed(verdict), "{verdict}: {handler:02X?} {proof:02X?}");
    assert!(known.is_none_or(|known| known == root), "{root:X}: {handler:02X?} {proof:02X?}");
    *counts.entry(verdict).or_default() += 1;
}

/// The root that the generator packed.
fn packed_root(pair: &Pair) -> u64 {
    let root = &pair.proof.root;
    let [p, r, g, q] = [root.p, root.r, root.g, root.q].map(|table| table as u64);
    root_of(pair.handler.space.states() as u64, p, r, g, q)
}

/// A damage that only the root's own fields have.
fn renumbered(random: &mut Random, pair: &Pair) -> Vec<u8> {
    let relations = pair.proof_file.that_say(What::RelationNumber);
    let fields = [pair.proof_file.that_say(What::SetNumber)[0], *random.pick(&relations[..3])];
    pair.proof_file.with_field(*random.pick(&fields), random.word())
}

fn one_pair(random: &mut Random, pair: &Pair, counts: &mut BTreeMap<u32, u64>) {
    let (handler, proof) = (&pair.handler_file.bytes, &pair.proof_file.bytes);
    compare(handler, proof, Some(packed_root(pair)), counts);
    for _ in 0..24 {
        let (handler, proof) = damaged(random, pair);
        compare(&handler, &proof, None, counts);
    }
    for _ in 0..4 {
        compare(handler, &renumbered(random, pair), None, counts);
    }
    let fault = *random.pick(&construct::NUMBERS);
    if let Some(built) = construct::fault(random, pair, fault) {
        compare(&built.handler, &built.proof, None, counts);
    }
    if random.chance(5) {
        let mut files = [handler.clone(), proof.clone()];
        files[random.below(2)].resize(LONGEST_FILE + random.between(1, 9), 0);
        compare(&files[0], &files[1], None, counts);
    }
}

#[test]
fn generated_files() {
    let wanted = setting("HANDOVER_COMPARISONS", 100_000);
    let mut random = Random::new(setting("HANDOVER_SEED", 0x0400_7001));
    let mut counts = BTreeMap::new();
    while counts.values().sum::<u64>() < wanted {
        let scale = if random.chance(25) { Scale::SMALL } else { Scale::FULL };
        let pair = accepted(&mut random, scale);
        one_pair(&mut random, &pair, &mut counts);
    }
    println!("{} roots: {counts:?}", counts.values().sum::<u64>());
    // 1 is about the work words, which this call does not have; 0 is acceptance.
    let every = NUMBERS.iter().filter(|number| **number != 1).chain(&[0]);
    let missing: Vec<&u32> = every.filter(|number| !counts.contains_key(number)).collect();
    assert!(missing.is_empty(), "no pair had these numbers: {missing:?}");
}
