//! The worked example and its damage, the step numbers of docs/RULES.md, and what is at the
//! limits. The cases called marked are those of the theorem `twelve` of the crate `report`.

use beside::{at_bit, at_node, judge, judge_with, HANDLER, PROOF};
use generate::author::operate;
use generate::derivation::Derivation;
use generate::pack::{self, What};
use generate::pairs::Pair;
use generate::programs::{self, in_order, number, of_steps, read, repeat, sequence, store, sum};
use generate::random::Random;
use generate::vacuous;
use reference::language::{Expression, Operation, Statement};
use reference::states::{Relation, StateSet};
use reference::{Verdict, LONGEST_FILE, TABLE_WORDS};

fn judge_pair(pair: &Pair) -> Verdict {
    judge(&pair.handler_file.bytes, &pair.proof_file.bytes)
}

/// A handler over the sizes, with the derivation that an empty P gives any handler.
fn vacuous(sizes: &[usize], statement: Statement) -> Verdict {
    judge_pair(&vacuous::pair(sizes, statement))
}

#[test]
fn the_marked_files() {
    assert_eq!(judge(&HANDLER, &PROOF), Verdict::Accepted(1));
    let without_guarantee = [0x08, 0xF0, 0x45, 0x20, 0x00, 0x40];
    assert_eq!(judge(&HANDLER, &without_guarantee), at_node(43, 0));
    assert_eq!(judge(&[], &PROOF), at_bit(10, 0));
    assert_eq!(judge(&[0x22], &PROOF), at_bit(10, 8));
    assert_eq!(judge(&[0x22, 0x20, 0x03], &PROOF), at_bit(18, 23));
}

#[test]
fn the_marked_tables() {
    let mut words = vec![7; TABLE_WORDS];
    reference::check(&HANDLER, &PROOF, &mut words);
    let set: Vec<(usize, u64)> =
        words.into_iter().enumerate().filter(|(_, word)| *word != 0).collect();
    // Set 0 is {0,1}; row 0 of relation 1 is {1}; both rows of relation 2 are {1}.
    assert_eq!(set, [(0, 3), (16 + 64, 2), (16 + 128, 2), (16 + 129, 2)]);
}

#[test]
fn the_marked_step_numbers() {
    let twice = operate(Operation::Add, read(0), read(0));
    assert_eq!(vacuous(&[2, 3], store(1, twice)), Verdict::Accepted(4));
    assert_eq!(vacuous(&[4], programs::count_down(0)), Verdict::Accepted(28));
    assert_eq!(vacuous(&[2], sequence(Statement::Nil, Statement::Nil)), Verdict::Accepted(1));
}

#[test]
fn the_marked_sizes() {
    assert_eq!(vacuous(&[8, 8], Statement::Nil), Verdict::Accepted(0));
    let mut packer = pack::Packer::new();
    packer.sizes(&[13, 5]);
    packer.statement(&Statement::Nil);
    assert_eq!(judge(&packer.finish().bytes, &PROOF), at_bit(13, 8));
}

/// The test (c = 0) ∨ (c = 1) of a loop, with c moved.
#[test]
fn the_marked_test() {
    let is = |value| operate(Operation::Equal, read(0), number(value));
    let statement = repeat(operate(Operation::Or, is(0), is(1)), Statement::Nil);
    let mut pair = vacuous::pair(&[2], statement);
    let all = StateSet::first(2);
    let to_one = Relation::of_rows([StateSet(2), StateSet(2)]);
    let every = Relation::of_rows([all, all]);
    let root = &mut pair.derivation;
    (root.tables.p, root.tables.r, root.tables.q) = (all, to_one.clone(), every);
    root.children[0].tables.r = to_one;
    let pair = Pair::new(pair.handler, pair.derivation).expect("it is small");
    assert_eq!(judge_pair(&pair), at_node(50, 0));
}

#[test]
fn work_words() {
    let with = |handler: &[u8], words| judge_with(handler, &PROOF, words).verdict;
    assert_eq!(with(&HANDLER, 1040), Verdict::Accepted(1));
    assert_eq!(with(&HANDLER, 1041), Verdict::Accepted(1));
    assert_eq!(with(&HANDLER, 1039), at_bit(1, 0));
    assert_eq!(with(&HANDLER, 0), at_bit(1, 0));
    assert_eq!(with(&[0; LONGEST_FILE + 1], 1039), at_bit(1, 0));
}

#[test]
fn lengths_of_files() {
    let longer = |file: &[u8], length: usize| {
        let mut bytes = file.to_vec();
        bytes.resize(length, 0);
        bytes
    };
    // A file that is read to its end has a further byte; a longer one is not read at all.
    assert_eq!(judge(&longer(&HANDLER, 16_384), &PROOF), at_bit(18, 24));
    assert_eq!(judge(&longer(&HANDLER, 16_385), &PROOF), at_bit(2, 0));
    assert_eq!(judge(&HANDLER, &longer(&PROOF, 16_384)), at_bit(25, 48));
    assert_eq!(judge(&HANDLER, &longer(&PROOF, 16_385)), at_bit(2, 0));
    assert_eq!(judge(&[], &longer(&PROOF, 16_385)), at_bit(2, 0));
}

/// The bit of the field at `index` among those of a handler that say `what`.
fn place_in(statement: &Statement, what: What, index: usize) -> (Vec<u8>, u32) {
    let mut packer = pack::Packer::new();
    packer.sizes(&[2]);
    packer.statement(statement);
    let file = packer.finish();
    let place = file.that_say(what)[index].bit as u32;
    (file.bytes, place)
}

#[test]
fn numbers_of_statements() {
    let sixty_three = in_order(vec![Statement::Nil; 32]);
    assert_eq!(vacuous(&[2], sixty_three.clone()), Verdict::Accepted(31));
    let sixty_four = Statement::If(Expression::Truth(true), Box::new(sixty_three));
    let (bytes, place) = place_in(&sixty_four, What::Statement, 63);
    assert_eq!(judge(&bytes, &PROOF), at_bit(17, place));
}

#[test]
fn levels_of_statements() {
    let mut random = Random::new(16);
    let verdict = vacuous(&[2], programs::deep(&mut random, 16));
    assert!(matches!(verdict, Verdict::Accepted(_)), "{verdict:?}");
    let (bytes, place) = place_in(&programs::deep(&mut random, 17), What::Statement, 16);
    assert_eq!(judge(&bytes, &PROOF), at_bit(17, place));
}

#[test]
fn nodes_of_expressions() {
    let long = |leaves| store(0, sum(leaves, leaves));
    assert_eq!(vacuous(&[2], long(16)), Verdict::Accepted(32));
    let (bytes, place) = place_in(&long(17), What::Expression, 31);
    assert_eq!(judge(&bytes, &PROOF), at_bit(17, place));
    // The limit is one expression's: two of 31 nodes pass.
    assert_eq!(vacuous(&[2], sequence(long(16), long(16))), Verdict::Accepted(65));
}

/// The derivation under so many weakens.
fn under(root: Derivation, weakens: usize) -> Derivation {
    (0..weakens).fold(root, |root, _| root.under_weaken())
}

/// A weaken over each of 63 nodes, and `more` over the root, on two variables of size 2.
fn weakened(more: usize) -> (Vec<u8>, pack::Packed) {
    let pair = vacuous::pair(&[2, 2], in_order(vec![Statement::Nil; 32]));
    let root = under(pair.derivation.doubled(), more);
    let proof = root.proof().expect("it has one set and one relation");
    (pair.handler_file.bytes, pack::proof(&proof, 4))
}

#[test]
fn numbers_of_nodes() {
    let (handler, proof) = weakened(1);
    assert_eq!(proof.that_say(What::Rule).len(), 127);
    assert_eq!(judge(&handler, &proof.bytes), Verdict::Accepted(31));
    let (handler, proof) = weakened(2);
    let place = proof.that_say(What::Rule)[127].bit as u32;
    assert_eq!(judge(&handler, &proof.bytes), at_bit(24, place));
}

#[test]
fn levels_of_nodes() {
    let pair = vacuous::pair(&[2], Statement::Nil);
    for (weakens, fits) in [(23, true), (24, false)] {
        let root = under(pair.derivation.clone(), weakens);
        let file = pack::proof(&root.proof().expect("it is small"), 2);
        let last = file.that_say(What::Rule)[weakens].bit as u32;
        let expected = if fits { Verdict::Accepted(0) } else { at_bit(24, last) };
        assert_eq!(judge(&pair.handler_file.bytes, &file.bytes), expected);
    }
}

#[test]
fn sizes() {
    for size in [2, 16] {
        assert_eq!(vacuous(&[size], Statement::Nil), Verdict::Accepted(0));
    }
    for size in [0, 1, 17, 31] {
        let mut packer = pack::Packer::new();
        packer.sizes(&[2, size]);
        packer.statement(&Statement::Nil);
        assert_eq!(judge(&packer.finish().bytes, &PROOF), at_bit(12, 8));
    }
}

/// With no state in P, no store breaks Q or G and no test is moved.
#[test]
fn an_empty_precondition() {
    let beyond = store(0, number(100));
    let test = operate(Operation::Equal, read(0), read(0));
    let statement = sequence(
        programs::parallel(beyond.clone(), beyond.clone()),
        programs::when(test.clone(), repeat(test, beyond)),
    );
    let every = Relation::of_rows([StateSet::first(2); 2]);
    let root = vacuous::derivation(&statement, &every);
    let pair = vacuous::pair(&[2], statement);
    let pair = Pair::new(pair.handler, root).expect("it is small");
    let verdict = judge_pair(&pair);
    assert!(matches!(verdict, Verdict::Accepted(_)), "{verdict:?}");
}

#[test]
fn the_step_limit() {
    let limit = u64::from(u32::MAX);
    for steps in [limit - 1, limit] {
        assert_eq!(vacuous(&[8, 8], of_steps(steps)), Verdict::Accepted(steps as u32));
    }
    for steps in [limit + 1, limit + 2, 1 << 50] {
        assert_eq!(vacuous(&[8, 8], of_steps(steps)), at_node(80, 0));
    }
}
