//! One pair from two accepted ones: the parallel of their handlers, with a proof of it.

use crate::canonical::Form;
use crate::conditions::Tables;
use crate::fault::Fault;
use crate::handler_file::{MOST_STATEMENTS, STATEMENT_LEVELS};
use crate::handler_writer;
use crate::language::{Handler, Statement};
use crate::proof_file::{Node, Proof, Rule, MOST_NODES, MOST_TABLES, NODE_LEVELS};
use crate::states::{Relation, StateSet};
use crate::{Accepted, LONGEST_FILE, TABLE_WORDS};

/// The numbers of the refusals that are no pair's own.
pub const TOO_FEW_WORDS: u32 = 1;
pub const SIZES_DIFFER: u32 = 90;
pub const SECOND_G_OUTSIDE_FIRST_R: u32 = 91;
pub const FIRST_G_OUTSIDE_SECOND_R: u32 = 92;
pub const G_LEADS_OUT_OF_P: u32 = 93;
pub const LIMIT_PASSED: u32 = 94;
pub const ROOM_TOO_SHORT: u32 = 95;

/// What becomes of two pairs.
#[derive(Clone, PartialEq, Eq, Debug)]
pub enum Composition {
    /// The step number and the two files.
    Made { steps: u32, handler: Vec<u8>, proof: Vec<u8> },
    /// The pair at fault, 1 or 2, where the fault is its length or its own, and else 0.
    Refused { pair: u32, fault: Fault },
}

/// Composes two pairs, the first handler on the left, with so many work words and rooms of so many
/// bytes for the two files. The table words end as 0, but 1 and 2 leave all words as they are.
pub fn compose(
    h1: &[u8],
    p1: &[u8],
    h2: &[u8],
    p2: &[u8],
    words: usize,
    handler_room: usize,
    proof_room: usize,
) -> Composition {
    let made = files(&[(h1, p1), (h2, p2)], words).and_then(|(steps, handler, proof)| {
        must(handler.len() <= handler_room && proof.len() <= proof_room, ROOM_TOO_SHORT)?;
        Ok(Composition::Made { steps, handler, proof })
    });
    made.unwrap_or_else(|(pair, fault)| Composition::Refused { pair, fault })
}

/// The step number and both files, whatever rooms there are, or the refusal with its pair.
fn files(pairs: &[(&[u8], &[u8]); 2], words: usize) -> Result<Files, Refusal> {
    must(words >= TABLE_WORDS, TOO_FEW_WORDS)?;
    let [first, second] = accepted(pairs)?;
    compatible(&first, &second)?;
    let (left, right) = (first.handler.statement, second.handler.statement);
    let statement = Statement::Parallel(Box::new(left), Box::new(right));
    let handler = Handler { space: first.handler.space, statement };
    let proof = proof_of_parallel(&first.proof, &second.proof);
    let steps = u64::from(first.steps) + u64::from(second.steps) + 1;
    written(&handler, &proof, steps).ok_or_else(|| neither(LIMIT_PASSED))
}

/// The step number, the handler file and the proof file.
type Files = (u32, Vec<u8>, Vec<u8>);

/// The pair at fault, or 0, and the fault.
type Refusal = (u32, Fault);

/// A refusal that is no pair's own.
fn neither(number: u32) -> Refusal {
    (0, Fault::at_bit(number, 0))
}

fn must(holds: bool, number: u32) -> Result<(), Refusal> {
    if holds {
        Ok(())
    } else {
        Err(neither(number))
    }
}

/// Both pairs as the check accepts them. The lengths of both go before all else of either.
fn accepted(pairs: &[(&[u8], &[u8]); 2]) -> Result<[Accepted; 2], Refusal> {
    for ((handler, proof), pair) in pairs.iter().zip(1..) {
        if handler.len() > LONGEST_FILE || proof.len() > LONGEST_FILE {
            return Err((pair, Fault::at_bit(2, 0)));
        }
    }
    let [(h1, p1), (h2, p2)] = pairs;
    let first = crate::accept(h1, p1).map_err(|fault| (1, fault))?;
    let second = crate::accept(h2, p2).map_err(|fault| (2, fault))?;
    Ok([first, second])
}

/// 90 to 93: the sizes are equal, each R has the other's G, and both G keep the met P.
fn compatible(first: &Accepted, second: &Accepted) -> Result<(), Refusal> {
    must(first.handler.space.sizes() == second.handler.space.sizes(), SIZES_DIFFER)?;
    let (one, two) = (root(&first.proof), root(&second.proof));
    must(two.g.lies_in(one.r), SECOND_G_OUTSIDE_FIRST_R)?;
    must(one.g.lies_in(two.r), FIRST_G_OUTSIDE_SECOND_R)?;
    let p = one.p.meet(two.p);
    must(one.g.join(two.g).image(p).lies_in(p), G_LEADS_OUT_OF_P)
}

fn root(proof: &Proof) -> Tables<'_> {
    Tables::of(proof, &proof.root)
}

/// The parallel node over a weaken for each side. Tables may be there more than once, or for no
/// node: the form has each of them once.
fn proof_of_parallel(first: &Proof, second: &Proof) -> Proof {
    let (one, two) = (root(first), root(second));
    let p = one.p.meet(two.p);
    let r = one.r.meet(two.r);
    let mut tables = Gathered { sets: vec![p], relations: Vec::new() };
    let left = tables.side(first, &r.join(two.g));
    let right = tables.side(second, &r.join(one.g));
    let root = Node {
        rule: Rule::Parallel,
        p: GATHERED_P,
        g: tables.add(one.g.join(two.g)),
        q: tables.add(reached(p, &one, &two, &r)),
        r: tables.add(r),
        children: vec![left, right],
    };
    Proof { sets: tables.sets, relations: tables.relations, root }
}

/// The pairs from P that both Q have and that R and both G reach in zero or more steps.
fn reached(p: StateSet, one: &Tables, two: &Tables, r: &Relation) -> Relation {
    let reach = r.join(one.g).join(two.g).reach();
    let row = |s: usize| match p.has(s) {
        true => one.q.row(s).meet(two.q.row(s)).meet(reach.row(s)),
        false => StateSet::NONE,
    };
    Relation::of_rows((0..64).map(row))
}

/// Where the met P is among the gathered sets.
const GATHERED_P: usize = 0;

/// The tables of the new proof, those of both sides among them.
struct Gathered {
    sets: Vec<StateSet>,
    relations: Vec<Relation>,
}

impl Gathered {
    /// The number of a relation, which is added.
    fn add(&mut self, relation: Relation) -> usize {
        self.relations.push(relation);
        self.relations.len() - 1
    }

    /// A weaken with the met P, this rely, and the G and Q of the proof that it is over.
    fn side(&mut self, proof: &Proof, rely: &Relation) -> Node {
        let (sets, relations) = (self.sets.len(), self.relations.len());
        self.sets.extend_from_slice(&proof.sets);
        self.relations.extend_from_slice(&proof.relations);
        let child = renumbered(&proof.root, sets, relations);
        let (g, q) = (child.g, child.q);
        let r = self.add(rely.clone());
        Node { rule: Rule::Weaken, p: GATHERED_P, r, g, q, children: vec![child] }
    }
}

/// The nodes of a proof whose tables come after so many others.
fn renumbered(node: &Node, sets: usize, relations: usize) -> Node {
    let rule = match node.rule {
        Rule::While { k, w } => Rule::While { k: k + sets, w: w + relations },
        rule => rule,
    };
    let children = node.children.iter();
    Node {
        rule,
        p: node.p + sets,
        r: node.r + relations,
        g: node.g + relations,
        q: node.q + relations,
        children: children.map(|child| renumbered(child, sets, relations)).collect(),
    }
}

/// Both files, or none where a limit is passed.
fn written(handler: &Handler, proof: &Proof, steps: u64) -> Option<Files> {
    let form = Form::of(proof);
    let statements = &handler.statement;
    let within = statements.count() <= MOST_STATEMENTS
        && statements.levels() <= STATEMENT_LEVELS
        && form.nodes() <= MOST_NODES as usize
        && proof.root.levels() <= NODE_LEVELS
        && form.sets() <= MOST_TABLES
        && form.relations() <= MOST_TABLES;
    if !within {
        return None;
    }
    let steps = u32::try_from(steps).ok()?;
    let (handler, proof) = (handler_writer::write(handler), form.write(handler.space.states()));
    let short = handler.len() <= LONGEST_FILE && proof.len() <= LONGEST_FILE;
    short.then_some((steps, handler, proof))
}

#[cfg(test)]
mod tests {
    use super::*;
    use crate::writer::spelled;
    use crate::{check, Verdict};

    type Pair = (Vec<u8>, Vec<u8>);

    /// c ← 1 over one variable of size 2, with P {0,1}, R none, G {(0,1)} and Q {(0,1), (1,1)}.
    fn store() -> Pair {
        let proof = "00001 00011  11  0000 0100 0101  001 0000 0000 0001 0010";
        (spelled("001 00010  001 00 00 00000001"), spelled(proof))
    }

    /// nil with P {0,1}, R {(0,1)}, G none and Q {(0,0), (0,1), (1,1)}.
    fn nil() -> Pair {
        let proof = "00001 00011  11  0100 0000 1101  000 0000 0000 0001 0010";
        (spelled("001 00010  000"), spelled(proof))
    }

    /// nil with the same P, R and G none, and Q {(0,0), (1,1)}.
    fn nil_alone() -> Pair {
        let proof = "00001 00010  11  0000 1001  000 0000 0000 0000 0001";
        (nil().0, spelled(proof))
    }

    fn lent(first: &Pair, second: &Pair, words: usize, rooms: (usize, usize)) -> Composition {
        compose(&first.0, &first.1, &second.0, &second.1, words, rooms.0, rooms.1)
    }

    fn composed(first: &Pair, second: &Pair) -> Composition {
        lent(first, second, TABLE_WORDS, (usize::MAX, usize::MAX))
    }

    fn refused(pair: u32, number: u32, bit: usize) -> Composition {
        Composition::Refused { pair, fault: Fault::at_bit(number, bit) }
    }

    /// R is none, G {(0,1)}, Q {(0,1), (1,1)}; the right side's Q is relation 3.
    #[test]
    fn a_store_beside_nil() {
        let handler = spelled("001 00010  011  001 00 00 00000001  000");
        let proof = spelled(
            "00001 00100  11  0000 0100 0101 1101
             011 0000 0000 0001 0010
             110 0000 0000 0001 0010  001 0000 0000 0001 0010
             110 0000 0001 0000 0011  000 0000 0001 0000 0011",
        );
        let made = Composition::Made { steps: 2, handler: handler.clone(), proof: proof.clone() };
        assert_eq!(composed(&store(), &nil()), made);
        let mut work = vec![0; TABLE_WORDS];
        assert_eq!(check(&handler, &proof, &mut work), Verdict::Accepted(2));
    }

    #[test]
    fn guarantees_outside_relies() {
        assert_eq!(composed(&store(), &store()), refused(0, 91, 0));
        assert_eq!(composed(&nil_alone(), &store()), refused(0, 91, 0));
        assert_eq!(composed(&store(), &nil_alone()), refused(0, 92, 0));
        assert!(matches!(composed(&nil(), &store()), Composition::Made { steps: 2, .. }));
    }

    /// Lengths go first, then the first pair's own faults, then the second's.
    #[test]
    fn a_pair_at_fault() {
        let cut = (vec![0x22], store().1);
        let empty = (vec![], vec![]);
        assert_eq!(composed(&cut, &empty), refused(1, 10, 8));
        assert_eq!(composed(&nil(), &cut), refused(2, 10, 8));
        let long = (nil().0, vec![0; LONGEST_FILE + 1]);
        assert_eq!(composed(&cut, &long), refused(2, 2, 0));
        assert_eq!(composed(&long, &long), refused(1, 2, 0));
    }

    #[test]
    fn rooms_and_words() {
        let of_files = |words, rooms| lent(&store(), &nil(), words, rooms);
        assert!(matches!(of_files(TABLE_WORDS, (4, 16)), Composition::Made { .. }));
        assert_eq!(of_files(TABLE_WORDS, (3, 16)), refused(0, 95, 0));
        assert_eq!(of_files(TABLE_WORDS, (4, 15)), refused(0, 95, 0));
        assert_eq!(of_files(TABLE_WORDS - 1, (0, 0)), refused(0, 1, 0));
    }
}
