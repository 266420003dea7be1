//! Guests keep their word: they compose unless a limit is passed, in varied ways, and those for a
//! limit are at it exactly.

use generate::guests::guests;
use generate::guests::limits::{self, Limit};
use generate::pairs::{Pair, Scale};
use generate::random::Random;
use reference::compose::LIMIT_PASSED;
use reference::language::{Handler, Statement};
use reference::proof_file::{Node, Proof, MOST_TABLES};
use reference::states::{Relation, StateSet};
use reference::{compose, handler_file, proof_file, Composition, Fault, TABLE_WORDS};

/// The composition of two pairs as trees, with its step number, or why there is none.
fn composed(pairs: &[Pair]) -> Result<(Handler, Proof, u32), Fault> {
    let [(h1, p1), (h2, p2)] =
        [0, 1].map(|index| (&pairs[index].handler_file.bytes, &pairs[index].proof_file.bytes));
    match compose(h1, p1, h2, p2, TABLE_WORDS, usize::MAX, usize::MAX) {
        Composition::Made { steps, handler, proof } => {
            let handler = handler_file::read(&handler).expect("it is well formed");
            let states = handler.space.states();
            let proof = proof_file::read(&proof, states).expect("it is well formed");
            Ok((handler, proof, steps))
        }
        Composition::Refused { pair: 0, fault } => Err(fault),
        Composition::Refused { pair, fault } => panic!("{fault:?} of pair {pair}"),
    }
}

fn limit_passed() -> Fault {
    Fault::at_bit(LIMIT_PASSED, 0)
}

/// Two of any number of guests compose, unless a limit is passed.
#[test]
fn guests_compose() {
    let mut random = Random::new(21);
    let mut made = 0;
    for count in (2..=4).cycle().take(900) {
        let pairs = guests(&mut random, Scale::FULL, count);
        assert_eq!(pairs.len(), count);
        match composed(&pairs[count - 2..]) {
            Ok(_) => made += 1,
            Err(fault) => assert_eq!(fault, limit_passed()),
        }
    }
    assert!(made > 700, "{made}");
}

/// What a composition can be like, each often enough to count on.
#[test]
fn compositions_are_varied() {
    let mut random = Random::new(22);
    let mut seen = [0; SHAPES.len()];
    for _ in 0..2000 {
        let pairs = guests(&mut random, Scale::FULL, 2);
        let Ok((_, proof, _)) = composed(&pairs) else { continue };
        for (count, (_, shape)) in seen.iter_mut().zip(SHAPES) {
            *count += usize::from(shape(&pairs[0], &pairs[1], &proof));
        }
    }
    for (count, (name, _)) in seen.into_iter().zip(SHAPES) {
        assert!(count >= 30, "only {count} compositions have {name}");
    }
}

type Shape = (&'static str, fn(&Pair, &Pair, &Proof) -> bool);

const SHAPES: [Shape; 14] = [
    ("an empty P", |_, _, proof| p(proof) == StateSet::NONE),
    ("every state in P", |one, _, proof| p(proof) == one.handler.space.all()),
    ("a P smaller than both, with a state", |one, two, proof| {
        let smaller = |pair: &Pair| pair.derivation.tables.p != p(proof);
        smaller(one) && smaller(two) && p(proof) != StateSet::NONE
    }),
    ("an empty R", |_, _, proof| r(proof) == &Relation::none()),
    ("an R smaller than both, with a pair", |one, two, proof| {
        let smaller = |pair: &Pair| pair.derivation.tables.r != *r(proof);
        smaller(one) && smaller(two) && r(proof) != &Relation::none()
    }),
    ("a G larger than both", |one, two, proof| {
        let larger = |pair: &Pair| pair.derivation.tables.g != *relation(proof, proof.root.g);
        larger(one) && larger(two)
    }),
    ("a pair of both Q that is not reached", |one, two, proof| {
        p(proof).members().any(|s| !both_q(one, two, s).lies_in(q(proof).row(s)))
    }),
    ("a pair of both Q from outside P", |one, two, proof| {
        let outside = one.handler.space.all().minus(p(proof));
        outside.members().any(|s| both_q(one, two, s) != StateSet::NONE)
    }),
    ("a Q smaller than both, with a pair", |one, two, proof| {
        let smaller = |pair: &Pair| pair.derivation.tables.q != *q(proof);
        smaller(one) && smaller(two) && q(proof) != &Relation::none()
    }),
    ("a Q reached in two steps only", |one, two, proof| {
        let step = r(proof).join(&one.derivation.tables.g).join(&two.derivation.tables.g);
        p(proof).members().any(|s| !q(proof).row(s).lies_in(step.row(s).with(s)))
    }),
    ("a relation that both proofs have", |one, two, _| {
        let shared = |relation: &Relation| {
            *relation != Relation::none() && two.proof.relations.contains(relation)
        };
        one.proof.relations.iter().any(shared)
    }),
    ("a weaken on a weaken", |one, _, _| {
        matches!(one.derivation.step, generate::derivation::Step::Weaken)
    }),
    ("a loop on both sides", |one, two, _| has_loop(one) && has_loop(two)),
    ("16 relations", |_, _, proof| proof.relations.len() == MOST_TABLES),
];

fn p(proof: &Proof) -> StateSet {
    proof.sets[proof.root.p]
}

fn r(proof: &Proof) -> &Relation {
    relation(proof, proof.root.r)
}

fn q(proof: &Proof) -> &Relation {
    relation(proof, proof.root.q)
}

fn relation(proof: &Proof, number: usize) -> &Relation {
    &proof.relations[number]
}

/// The ends from a state that both Q have.
fn both_q(one: &Pair, two: &Pair, s: usize) -> StateSet {
    one.derivation.tables.q.row(s).meet(two.derivation.tables.q.row(s))
}

fn has_loop(pair: &Pair) -> bool {
    fn within(statement: &Statement) -> bool {
        matches!(statement, Statement::While(..)) || statement.parts().into_iter().any(within)
    }
    within(&pair.handler.statement)
}

/// What the composition has of that which is limited.
fn amount(limit: Limit, (handler, proof, steps): (Handler, Proof, u32)) -> u32 {
    fn nodes(node: &Node) -> u32 {
        1 + node.children.iter().map(nodes).sum::<u32>()
    }
    match limit {
        Limit::Statements => handler.statement.count(),
        Limit::StatementLevels => handler.statement.levels(),
        Limit::Nodes => nodes(&proof.root),
        Limit::NodeLevels => proof.root.levels(),
        Limit::Sets => proof.sets.len() as u32,
        Limit::Relations => proof.relations.len() as u32,
        Limit::Steps => steps,
    }
}

/// At the limit the composition is made and has exactly so much; past it there is none.
#[test]
fn limits_exactly() {
    let mut random = Random::new(23);
    for (limit, most) in Limit::ALL.into_iter().zip([63, 16, 127, 24, 16, 16, u32::MAX]) {
        for _ in 0..50 {
            let at_limit = composed(&limits::pairs(&mut random, limit, 0));
            assert_eq!(at_limit.map(|made| amount(limit, made)), Ok(most), "{limit:?}");
            let any = random.between(1, limit.most_over());
            for over in [1, any, limit.most_over()] {
                let past = composed(&limits::pairs(&mut random, limit, over));
                assert_eq!(past.map(|_| ()), Err(limit_passed()), "{limit:?} {over}");
            }
        }
    }
}
