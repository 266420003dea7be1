//! Generated proofs in many numberings, and damaged files: the form by every checker, and what
//! must hold of it.
//!
//! `HANDOVER_COMPARISONS` asks for more than the default, `HANDOVER_SEED` for others.

use super::tally::{mentions, Tally, RULES};
use beside::form::Form;
use beside::lawful::FORM_NUMBERS;
use beside::{at_bit, judge_canonical, judge_form, judge_states, number, setting, Judgement};
use generate::arbitrary;
use generate::construct;
use generate::damage::damaged;
use generate::pack;
use generate::pairs::{accepted, Pair, Scale};
use generate::random::Random;
use generate::renumber::{agree, renumbered, similar};
use reference::proof_file::Proof;
use reference::{handler_file, proof_file, Verdict, LONGEST_FILE};
use std::collections::BTreeMap;

/// Half of the pairs that are wanted; each of the two tests does one half.
fn wanted() -> u64 {
    setting("HANDOVER_COMPARISONS", 100_000).div_ceil(2)
}

fn random(test: u64) -> Random {
    Random::new(setting("HANDOVER_SEED", 0xCA40) ^ test << 32)
}

fn some_pair(random: &mut Random) -> Pair {
    let scale = if random.chance(25) { Scale::SMALL } else { Scale::FULL };
    accepted(random, scale)
}

/// The form of a proof by every checker, held to what must be true of it.
fn compare(handler: &[u8], proof: &[u8], tally: &mut Tally) -> Form {
    let form = judge_form(handler, proof);
    let judgement = judge_states(handler, proof);
    match &form {
        Ok(bytes) => {
            same_verdict(handler, bytes, judgement);
            the_same_proof(handler, proof, bytes, tally);
            let accepted = matches!(judgement.verdict, Verdict::Accepted(_));
            tally.add(if accepted { "accepted" } else { "refused at a node" });
            tally.add_number(3);
        }
        Err(refused) => {
            assert_eq!(*refused, judgement.verdict, "{handler:02X?} {proof:02X?}");
            tally.add_number(number(*refused));
        }
    }
    tally.total += 1;
    form
}

/// The check says of the form what it says of the file, with the same states.
fn same_verdict(handler: &[u8], form: &[u8], of_file: Judgement) {
    assert_eq!(judge_states(handler, form), of_file, "{handler:02X?} {form:02X?}");
}

/// The form is well formed over the same N, no longer than the file, and the same proof; writing
/// it a second time changes nothing.
fn the_same_proof(handler: &[u8], file: &[u8], form: &[u8], tally: &mut Tally) {
    let states = handler_file::read(handler).expect("it was read").space.states();
    let [before, after] = [file, form].map(|bytes| proof_file::read(bytes, states));
    let (before, after) = (before.expect("it was read"), after.expect("the form is well formed"));
    assert!(form.len() <= file.len() && agree(&before, &after), "{file:02X?} {form:02X?}");
    assert!(is_in_form(&after), "{form:02X?}");
    assert_eq!(judge_canonical(handler, form, form.len()).as_deref(), Ok(form));
    tally.add_changes(&before, &after);
}

/// Whether the tables are numbered by first mention, all mentioned, and no two equal.
fn is_in_form(proof: &Proof) -> bool {
    let (sets, relations) = mentions(&proof.root);
    let by_first_mention = |mentions: Vec<usize>, tables: usize| {
        let next = |seen: usize, number: usize| match number {
            number if number == seen => Some(seen + 1),
            number if number < seen => Some(seen),
            _ => None,
        };
        mentions.into_iter().try_fold(0, next) == Some(tables)
    };
    by_first_mention(sets, proof.sets.len())
        && by_first_mention(relations, proof.relations.len())
        && distinct(&proof.sets)
        && distinct(&proof.relations)
}

fn distinct<T: PartialEq>(tables: &[T]) -> bool {
    (1..tables.len()).all(|last| !tables[..last].contains(&tables[last]))
}

/// The kinds that every run has to meet.
fn kinds(names: &[&str]) -> Vec<String> {
    names.iter().map(|name| name.to_string()).collect()
}

/// The same proof in many numberings has the same bytes; a similar one has them exactly if it
/// agrees.
#[test]
fn proofs_in_many_numberings() {
    let (mut random, mut tally) = (random(1), Tally::default());
    let mut handlers = BTreeMap::new();
    while tally.total < wanted() {
        let pair = some_pair(&mut random);
        one_proof(&mut random, &pair, &mut handlers, &mut tally);
    }
    let both = ["sets", "relations"].map(|sort| {
        ["dropped", "merged", "moved"].map(|change| format!("{sort} {change}")).to_vec()
    });
    let rest = ["16 sets", "16 relations", "in form already", "agree", "differ"];
    let more = ["accepted", "refused at a node", "another handler", "number 3"];
    tally.often_enough(&[both.concat(), kinds(&rest), kinds(&more), kinds(&RULES)].concat());
}

/// An accepted proof, or one with a few changes, or one at random; then the same in several
/// numberings, and proofs like it.
fn one_proof(
    random: &mut Random,
    pair: &Pair,
    handlers: &mut BTreeMap<usize, Vec<u8>>,
    tally: &mut Tally,
) {
    let (handler, states) = (&pair.handler_file.bytes, pair.handler.space.states());
    let proof = match random.below(8) {
        0..=3 => pair.proof.clone(),
        4..=5 => (0..3).fold(pair.proof.clone(), |proof, _| similar(random, &proof, states)),
        _ => arbitrary::proof(random, states),
    };
    let file = |proof: &Proof| pack::proof(proof, states).bytes;
    let form = compare(handler, &file(&proof), tally);
    // The generator numbers by first mention and has each table once: that is the form.
    let own = proof != pair.proof || form.as_deref() == Ok(&pair.proof_file.bytes);
    assert!(own, "{proof:?} {form:02X?}");
    for _ in 0..12 {
        let version = renumbered(random, &proof, states);
        let bytes = compare(handler, &file(&version), tally);
        assert_eq!(bytes, form, "{proof:?} {version:?}");
        if random.chance(30) {
            let other = similar(random, &version, states);
            let bytes = compare(handler, &file(&other), tally);
            tally.add_agreement((&proof, &other), bytes == form);
        }
    }
    let version = file(&renumbered(random, &proof, states));
    if let Some(other) = handlers.insert(states, handler.clone()) {
        assert_eq!(compare(&other, &version, tally), form);
        tally.add("another handler");
    }
}

/// Damaged files, and faults whose verdict is known.
#[test]
fn damaged_files() {
    let (mut random, mut tally) = (random(2), Tally::default());
    while tally.total < wanted() {
        let pair = some_pair(&mut random);
        for _ in 0..16 {
            let (handler, proof) = damaged(&mut random, &pair);
            let form = compare(&handler, &proof, &mut tally);
            tally.add(if form.is_ok() { "written" } else { "not written" });
        }
        known_faults(&mut random, &pair, &mut tally);
    }
    let numbers = FORM_NUMBERS.map(|number| format!("number {number}")).to_vec();
    tally.often_enough(
        &[numbers, kinds(&["written", "not written", "refused at a node"]), kinds(&RULES)].concat(),
    );
}

fn known_faults(random: &mut Random, pair: &Pair, tally: &mut Tally) {
    let fault = *random.pick(&construct::NUMBERS);
    if let Some(made) = construct::fault(random, pair, fault) {
        let form = compare(&made.handler, &made.proof, tally);
        // 80 is a fault of the steps: the proof is written all the same.
        assert!(fault == 80 && form.is_ok() || form == Err(made.verdict), "{fault}: {form:?}");
    }
    if random.chance(10) {
        let mut files = [pair.handler_file.bytes.clone(), pair.proof_file.bytes.clone()];
        files[random.below(2)].resize(LONGEST_FILE + random.between(1, 9), 0);
        assert_eq!(compare(&files[0], &files[1], tally), Err(at_bit(2, 0)));
    }
}
