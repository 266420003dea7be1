//! The generator keeps its word: its pairs are accepted, varied, and packed as they read.

use generate::derivation::{Derivation, Step, Tables};
use generate::pairs::{accepted, Pair, Scale};
use generate::random::Random;
use generate::wraps::{in_tables, Wraps};
use reference::language::Statement;
use reference::space::Space;
use reference::{check, handler_file, proof_file, Verdict, TABLE_WORDS};

fn some_pairs(seed: u64, count: usize) -> impl Iterator<Item = Pair> {
    let mut random = Random::new(seed);
    (0..count).map(move |_| accepted(&mut random, Scale::FULL))
}

#[test]
fn pairs_are_accepted() {
    let mut work = vec![0; TABLE_WORDS];
    for pair in some_pairs(1, 1500) {
        let verdict = check(&pair.handler_file.bytes, &pair.proof_file.bytes, &mut work);
        assert!(matches!(verdict, Verdict::Accepted(_)), "{verdict:?} {:?}", pair.handler);
    }
}

/// What is packed reads back as it was.
#[test]
fn files_read_back() {
    for pair in some_pairs(2, 1500) {
        let handler = handler_file::read(&pair.handler_file.bytes);
        assert_eq!(handler.as_ref(), Ok(&pair.handler));
        let proof = proof_file::read(&pair.proof_file.bytes, pair.handler.space.states());
        assert_eq!(proof, Ok(pair.proof));
    }
}

/// The shapes that the conditions were written for, each often enough to count on.
#[test]
fn pairs_are_varied() {
    let mut seen = [0; SHAPES.len()];
    for pair in some_pairs(3, 1500) {
        for (count, (_, shape)) in seen.iter_mut().zip(SHAPES) {
            *count += usize::from(shape(&pair));
        }
    }
    for (count, (name, _)) in seen.into_iter().zip(SHAPES) {
        assert!(count >= 30, "only {count} pairs have {name}");
    }
}

type Shape = (&'static str, fn(&Pair) -> bool);

const SHAPES: [Shape; 16] = [
    ("a skip", |pair| any(&pair.derivation, &|n| matches!(n.step, Step::Skip))),
    ("an assignment", |pair| any(&pair.derivation, &|n| matches!(n.step, Step::Assignment))),
    ("a sequence", |pair| any(&pair.derivation, &|n| matches!(n.step, Step::Sequence))),
    ("an if", |pair| any(&pair.derivation, &|n| matches!(n.step, Step::If))),
    ("a weaken", |pair| any(&pair.derivation, &|n| matches!(n.step, Step::Weaken))),
    ("a parallel in a parallel", |pair| nested(&pair.handler.statement, is_parallel, is_parallel)),
    ("a loop in a parallel", |pair| nested(&pair.handler.statement, is_parallel, is_loop)),
    ("a parallel in a loop", |pair| nested(&pair.handler.statement, is_loop, is_parallel)),
    ("K smaller than P", |pair| any(&pair.derivation, &smaller_k)),
    ("a loop under interference", |pair| any(&pair.derivation, &interfered_loop)),
    ("a loop whose test reads a moved variable", |pair| {
        reads_moved(&pair.derivation, &pair.handler.statement, &pair.handler.space)
    }),
    ("a store that wraps up", |pair| wraps(pair).up),
    ("a store that wraps down", |pair| wraps(pair).down),
    ("a store that wraps in a loop", |pair| {
        wraps_in_loop(&pair.derivation, &pair.handler.statement, &pair.handler.space)
    }),
    ("64 states", |pair| pair.handler.space.states() == 64),
    ("an empty P", |pair| pair.derivation.tables.p.members().next().is_none()),
];

fn any(node: &Derivation, shape: &dyn Fn(&Derivation) -> bool) -> bool {
    shape(node) || node.children.iter().any(|child| any(child, shape))
}

fn wraps(pair: &Pair) -> Wraps {
    in_tables(&pair.handler.space, &pair.derivation, &pair.handler.statement)
}

fn wraps_in_loop(node: &Derivation, statement: &Statement, space: &Space) -> bool {
    let here = matches!(node.step, Step::While { .. })
        && in_tables(space, node, statement) != Wraps::default();
    let below = node.step.below(statement);
    here || node.children.iter().zip(below).any(|(child, part)| wraps_in_loop(child, part, space))
}

/// A loop that starts somewhere, with a K that leaves out a part of P.
fn smaller_k(node: &Derivation) -> bool {
    let p = node.tables.p;
    let Step::While { k, .. } = node.step else { return false };
    !p.lies_in(k) && p.meet(k).members().next().is_some()
}

fn interfered_loop(node: &Derivation) -> bool {
    let Step::While { k, .. } = node.step else { return false };
    let moved = |s: usize| node.tables.r.row(s).without(s).members().next().is_some();
    node.tables.p.meet(k).members().any(moved)
}

/// Whether a loop's test reads a variable that its rely moves.
fn reads_moved(node: &Derivation, statement: &Statement, space: &Space) -> bool {
    let Tables { p, r, .. } = &node.tables;
    let moved = |v: usize| p.members().any(|s| r.row(s).members().any(|t| space.differ(v, s, t)));
    let below = node.step.below(statement);
    let here = match (&node.step, statement) {
        (Step::While { .. }, Statement::While(test, _)) => test.occurrences(&moved) > 0,
        _ => false,
    };
    here || node.children.iter().zip(below).any(|(child, part)| reads_moved(child, part, space))
}

fn is_parallel(statement: &Statement) -> bool {
    matches!(statement, Statement::Parallel(..))
}

fn is_loop(statement: &Statement) -> bool {
    matches!(statement, Statement::While(..))
}

type Is = fn(&Statement) -> bool;

/// Whether a statement of the first kind has one of the second somewhere within.
fn nested(statement: &Statement, outer: Is, inner: Is) -> bool {
    fn contains(statement: &Statement, is: Is) -> bool {
        is(statement) || statement.parts().into_iter().any(|part| contains(part, is))
    }
    let within = |part: &&Statement| contains(part, inner);
    outer(statement) && statement.parts().iter().any(within)
        || statement.parts().into_iter().any(|part| nested(part, outer, inner))
}
