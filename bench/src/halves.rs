//! Two halves of the large pair that run beside each other.

use crate::rows::{derive, files, pair, Call, Row};
use generate::derivation::{Derivation, Step, Tables};
use generate::programs::{count_down, count_up, in_order, parallel};
use reference::language::Statement;
use reference::states::Relation;

/// The large pair is not composed with itself: its R is empty and its G is not (91). With its own G
/// as R it is not accepted, because it reads what it stores (41), and 127 statements are too many
/// (94). So it is two halves of it, each with five of its ten parallels, one of its two nils, two
/// variables of its own and the other's G as R. The result has 63 statements and 127 nodes.
pub fn composed() -> Row {
    let sizes = [4, 2, 4, 2];
    let statements = [(0, 1), (2, 3)].map(|(down, up)| {
        let block = parallel(count_down(down), count_up(up, 1));
        in_order(vec![block; 5].into_iter().chain([Statement::Nil]).collect())
    });
    let alone = |statement| derive(&sizes, statement, &Relation::none(), true).tables.g;
    let [left_g, right_g] = statements.each_ref().map(alone);
    let [left, right] = statements;
    let half = |statement: &Statement, r: &Relation| derive(&sizes, statement, r, true).doubled();
    let (one, two) = (half(&left, &right_g), half(&right, &left_g));
    let whole = beside_each_other(&one, &two);
    assert_eq!(whole.nodes(), 127);
    let made = pair(&sizes, parallel(left.clone(), right.clone()), whole);
    let (one, two) = (pair(&sizes, left, one), pair(&sizes, right, two));
    Row {
        name: "compose: two halves of large, each with its own variables",
        handler: one.handler_file.bytes,
        proof: one.proof_file.bytes,
        call: Call::Compose { second: files(two), steps: 10_181, made: files(made) },
    }
}

/// The parallel over a weaken for each side, where every state is in both P and no others act.
fn beside_each_other(one: &Derivation, two: &Derivation) -> Derivation {
    let (a, b) = (&one.tables, &two.tables);
    assert!(a.p == b.p && a.r == b.g && b.r == a.g && a.r.meet(&b.r) == Relation::none());
    let g = a.g.join(&b.g);
    let q = a.q.meet(&b.q).meet(&g.reach());
    let tables = Tables { p: a.p, r: Relation::none(), g, q };
    let sides = [one, two].map(|side| side.clone().under_weaken());
    Derivation { step: Step::Parallel, tables, children: sides.into() }
}

#[cfg(test)]
mod tests {
    use super::*;
    use crate::rows::large;
    use beside::{judge, judge_composition};
    use reference::{handler_file, Composition, Fault, Verdict};

    /// Why there are halves.
    #[test]
    fn the_large_pair_does_not_allow_itself() {
        let (handler, proof) = files(large());
        let composition = judge_composition((&handler, &proof), (&handler, &proof));
        let refused = Composition::Refused { pair: 0, fault: Fault::at_bit(91, 0) };
        assert_eq!(composition, refused);
    }

    /// The result has as many statements as the large pair, and as many steps.
    #[test]
    fn the_halves_make_a_large_pair() {
        let Call::Compose { made: (handler, proof), steps, .. } = composed().call else {
            panic!("it measures another call");
        };
        let read = handler_file::read(&handler).expect("it is well-formed");
        let (large_handler, large_proof) = files(large());
        assert_eq!(read.statement.count(), large().handler.statement.count());
        assert_eq!(judge(&handler, &proof), Verdict::Accepted(steps));
        assert_eq!(judge(&large_handler, &large_proof), Verdict::Accepted(steps));
    }
}
